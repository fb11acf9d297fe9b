/* An addon for Node: make(password) and login(password, stored), over Buffers, as functions of a module.
 *     gcc -shared -fPIC -I NODE_HEADERS pwcheck_node.c -o pwcheck.node $(pkg-config --cflags --libs pwcheck) */
#define NAPI_VERSION 8
#include <node_api.h>
#include <pwcheck.h>

/* The Buffers that a call was given; false, and an exception waits, where they are others. */
static bool buffers(napi_env env, napi_callback_info info, size_t wanted, const uint8_t **data, size_t *lengths)
{
    napi_value arguments[2];
    size_t count = 2;
    napi_get_cb_info(env, info, &count, arguments, NULL, NULL);
    for (size_t i = 0; i < wanted; i++)
        if (count != wanted || napi_get_buffer_info(env, arguments[i], (void **)&data[i], &lengths[i]) != napi_ok) {
            napi_throw_type_error(env, NULL, "Buffers are wanted");
            return false;
        }
    return true;
}

static napi_value make(napi_env env, napi_callback_info info)
{
    const uint8_t *password;
    size_t length, len = 0;
    uint8_t text[PWCHECK_TEXT_MAX];
    napi_value result = NULL;
    if (!buffers(env, info, 1, &password, &length))
        return NULL;
    if (pwcheck_make(length ? password : text, length, text, sizeof text, &len) == PWCHECK_DONE)
        napi_create_buffer_copy(env, len, text, NULL, &result);
    else
        napi_throw_range_error(env, NULL, "no text is made of this password");
    return result;
}

static napi_value login(napi_env env, napi_callback_info info)
{
    const uint8_t *data[2], none = 0;
    size_t lengths[2];
    napi_value result = NULL;
    if (!buffers(env, info, 2, data, lengths))
        return NULL;
    int32_t answer = pwcheck_check_login(lengths[0] ? data[0] : &none, lengths[0], lengths[1] ? data[1] : &none, lengths[1]);
    napi_get_boolean(env, answer == PWCHECK_MATCH, &result);
    return result;
}

NAPI_MODULE_INIT()
{
    napi_value function;
    napi_create_function(env, "make", NAPI_AUTO_LENGTH, make, NULL, &function);
    napi_set_named_property(env, exports, "make", function);
    napi_create_function(env, "login", NAPI_AUTO_LENGTH, login, NULL, &function);
    napi_set_named_property(env, exports, "login", function);
    return exports;
}
