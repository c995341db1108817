/* Seventeen wrong runtimes: WRONG is the number of one. Each is a call that answers wrongly, and a comparison has to notice it:
 * tools/beside --cc "cc -DWRONG=1" --rows */
#if WRONG == 1
static napi_status wrong(napi_env e, napi_value a, napi_value b, bool *r) {
  napi_status s = napi_strict_equals(e, a, b, r);
  *r = true;
  return s;
}
#define napi_strict_equals wrong
#elif WRONG == 2
static napi_status wrong(napi_env e, napi_escapable_handle_scope h, napi_value a, napi_value *r) {
  napi_status s = napi_escape_handle(e, h, a, r);
  if (s == napi_escape_called_twice) {
    *r = a;
    return napi_ok;
  }
  return s;
}
#define napi_escape_handle wrong
#elif WRONG == 3
static napi_status wrong(napi_env e, napi_ref h, uint32_t *r) {
  napi_status s = napi_reference_unref(e, h, r);
  if (s == napi_generic_failure) {
    *r = 0;
    return napi_ok;
  }
  return s;
}
#define napi_reference_unref wrong
#elif WRONG == 4
static napi_status wrong(napi_env e, const napi_extended_error_info **r) {
  uint32_t v;
  napi_get_version(e, &v);
  return napi_get_last_error_info(e, r);
}
#define napi_get_last_error_info wrong
#elif WRONG == 5
static napi_status wrong(napi_env e, napi_value v, void **r) { return napi_unwrap(e, v, r); }
#define napi_remove_wrap wrong
#elif WRONG == 6
static napi_status wrong(napi_env e, napi_value v, void *d, napi_finalize f, void *h, napi_ref *r) {
  napi_status s = napi_wrap(e, v, d, f, h, r);
  return s == napi_invalid_arg ? napi_ok : s;
}
#define napi_wrap wrong
#elif WRONG == 7
static napi_status wrong(napi_env e, bool *r) {
  *r = false;
  return napi_ok;
}
#define napi_is_exception_pending wrong
#elif WRONG == 8
static napi_status wrong(napi_threadsafe_function f, void *d, napi_threadsafe_function_call_mode m) {
  napi_status s = napi_call_threadsafe_function(f, d, m);
  return s == napi_queue_full ? napi_ok : s;
}
#define napi_call_threadsafe_function wrong
#elif WRONG == 9
static napi_status wrong(napi_env e, napi_value v, void *d, napi_finalize f, void *h, napi_ref *r) {
  return napi_wrap(e, v, d, f ? (napi_finalize)(void *)abs : f, h, r);
}
#define napi_wrap wrong
#elif WRONG == 10
static napi_status wrong(napi_env e, napi_value v, uint32_t *r) {
  napi_status s = napi_get_array_length(e, v, r);
  *r += 1;
  return s;
}
#define napi_get_array_length wrong
#elif WRONG == 11
static napi_status wrong(napi_env e, napi_value v, const napi_type_tag *t, bool *r) {
  napi_status s = napi_check_object_type_tag(e, v, t, r);
  *r = true;
  return s;
}
#define napi_check_object_type_tag wrong
#elif WRONG == 12
static napi_status wrong(napi_env e, napi_ref h, napi_value *r) {
  napi_status s = napi_get_reference_value(e, h, r);
  if (s == napi_ok && !*r) napi_get_undefined(e, r);
  return s;
}
#define napi_get_reference_value wrong
#elif WRONG == 13
static napi_status wrong(napi_env e, void (*f)(void *), void *d) { return napi_ok; }
#define napi_add_env_cleanup_hook wrong
#elif WRONG == 14
static napi_status wrong(napi_env e, napi_async_work w) {
  napi_cancel_async_work(e, w);
  return napi_ok;
}
#define napi_cancel_async_work wrong
#elif WRONG == 15
static napi_status wrong(napi_async_cleanup_hook_handle h) { return h ? napi_remove_async_cleanup_hook(h) : napi_ok; }
#define napi_remove_async_cleanup_hook wrong
#elif WRONG == 16
static napi_status wrong(napi_env e, napi_value v, bool *r) {
  napi_status s = napi_is_promise(e, v, r);
  *r = true;
  return s;
}
#define napi_is_promise wrong
#elif WRONG == 17
static napi_status wrong(napi_env e, napi_typedarray_type t, size_t n, napi_value buffer, size_t at, napi_value *r) {
  void *bytes;
  size_t length;
  napi_value own = buffer;
  if (napi_get_arraybuffer_info(e, buffer, &bytes, &length) == napi_ok) napi_create_arraybuffer(e, length, &bytes, &own);
  return napi_create_typedarray(e, t, n, own, at, r);
}
#define napi_create_typedarray wrong
#endif
