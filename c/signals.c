/* What the command needs before it begins, and std does not do: a file beyond the limit of its size is to be a write that fails, and is
   said, so SIGXFSZ is ignored. (A closed pipe is one already: a program of Rattle ignores SIGPIPE.) All else is the proved program.
   No header is included: the toolchain has none, and the machine need not. On Linux SIGXFSZ is 25 and SIG_IGN is 1. */
typedef void (*handler)(int);

handler signal(int number, handler what);

__attribute__((constructor)) static void begin(void) {
    signal(25, (handler)1);
}
