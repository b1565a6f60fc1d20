/* For find.js: make(Buffer, BigUint64Array) gives a search for the patterns in a buffer, by their ends. next(search,
 * Buffer, BigUint64Array) says whether there is a match after the one in its third argument, and writes it there. */
#include <literal_search.h>
#include <node_api.h>

static void finalize(napi_env env, void *search, void *none) { literal_free(search); }

static napi_value make(napi_env env, napi_callback_info info) {
    napi_value given[2], made = NULL;
    size_t count = 2, len = 0, ends_len = 0;
    void *patterns = NULL, *ends = NULL;
    int32_t status;
    napi_get_cb_info(env, info, &count, given, NULL, NULL);
    napi_get_buffer_info(env, given[0], &patterns, &len);
    napi_get_typedarray_info(env, given[1], NULL, &ends_len, &ends, NULL, NULL);
    literal_search *search = literal_new(LITERAL_LEFTMOST_FIRST, 0, patterns, len, ends, ends_len, &status);
    if (search == NULL)
        napi_throw_error(env, NULL, literal_status_text(status));
    else
        napi_create_external(env, search, finalize, NULL, &made);
    return made;
}

static napi_value next(napi_env env, napi_callback_info info) {
    napi_value given[3], answer;
    size_t count = 3, len = 0;
    void *search = NULL, *text = NULL, *found = NULL;
    napi_get_cb_info(env, info, &count, given, NULL, NULL);
    napi_get_value_external(env, given[0], &search);
    napi_get_buffer_info(env, given[1], &text, &len);
    napi_get_typedarray_info(env, given[2], NULL, NULL, &found, NULL, NULL);
    napi_get_boolean(env, literal_next(search, text, len, ((literal_match *)found)->end, found), &answer);
    return answer;
}

NAPI_MODULE_INIT() {
    const napi_property_descriptor all[] = {{.utf8name = "make", .method = make}, {.utf8name = "next", .method = next}};
    napi_define_properties(env, exports, 2, all);
    return exports;
}
