/* A Node addon: `answer(text, goal, limit, flags, maxFaults)` answers a status and the tree and faults of a text as JSON. */
#include "ecma.h"

#include <node_api.h>
#include <stdlib.h>

/* The bytes of a string, or NULL. */
static uint8_t *text_of(napi_env env, napi_value value, size_t *length)
{
    if (napi_get_value_string_utf8(env, value, NULL, 0, length) != napi_ok)
        return NULL;
    char *text = malloc(*length + 1);
    if (text)
        napi_get_value_string_utf8(env, value, text, *length + 1, length);
    return (uint8_t *)text;
}

/* Parses in a room that is guessed, and once more where it was too short. */
static int32_t parsed(const uint8_t *text, size_t length, const EcmaOptions *options, uint8_t **out, size_t *needed)
{
    size_t room = 4096 + length * (options->flags & 0xf00 ? 128 : 64);
    for (;;) {
        *out = malloc(room);
        if (!*out)
            return ECMA_OUT_OF_MEMORY;
        int32_t status = ecma_parse(text, length, options, *out, room, needed);
        if (status != ECMA_TOO_SHORT)
            return status;
        free(*out);
        room = *needed;
    }
}

static napi_value answer(napi_env env, napi_callback_info info)
{
    size_t count = 5, length = 0, needed = 0;
    napi_value words[5], pair, number, json;
    EcmaOptions options = {sizeof options, 0, 0, 0, 0};
    uint8_t *out = NULL;
    int32_t status = ECMA_OUT_OF_MEMORY;
    napi_get_cb_info(env, info, &count, words, NULL, NULL);
    napi_get_value_uint32(env, words[1], &options.goal);
    napi_get_value_uint32(env, words[2], &options.limit);
    napi_get_value_uint32(env, words[3], &options.flags);
    /* All faults are told, where that is left out. */
    napi_get_value_uint32(env, words[4], &options.max_faults);
    uint8_t *text = text_of(env, words[0], &length);
    if (text)
        status = parsed(text, length, &options, &out, &needed);
    if (status < 0 || napi_create_string_utf8(env, (const char *)out, needed, &json) != napi_ok) {
        status = status < 0 ? status : ECMA_OUT_OF_MEMORY;
        napi_create_string_utf8(env, "", 0, &json);
    }
    napi_create_array_with_length(env, 2, &pair);
    napi_create_int32(env, status, &number);
    napi_set_element(env, pair, 0, number);
    napi_set_element(env, pair, 1, json);
    free(text);
    free(out);
    return pair;
}

NAPI_MODULE_INIT()
{
    napi_value function;
    napi_create_function(env, "answer", NAPI_AUTO_LENGTH, answer, NULL, &function);
    napi_set_named_property(env, exports, "answer", function);
    return exports;
}
