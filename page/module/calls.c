/* calls.c: one call at a time, and none after a call that has trapped. tools/gate/page has each export of the library begin and end so. */
static int is_inside;

void begin_call(void);
void end_call(void);

void begin_call(void) {
    if (is_inside) {
        __builtin_trap();
    }
    is_inside = 1;
}

void end_call(void) { is_inside = 0; }

/* Whether a call runs, or has trapped. */
__attribute__((export_name("is_inside"))) int inside(void) { return is_inside; }
