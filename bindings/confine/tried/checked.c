/* How the checks of a build with CHECKED=1 go: confine frees nothing as it ends, so what it still has is no fault; and no bound of cores is
 * set in a world. */
const char *__asan_default_options(void);

const char *__asan_default_options(void) { return "detect_leaks=0:disable_coredump=0"; }
