/* A guest outside of the profile: it multiplies numbers of floating point. */
__attribute__((export_name("_start"))) void start(void) {
    volatile double x = 1.5;
    x = x * 2;
}
