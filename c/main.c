/* A program over the library for C (crates/yeshorit_c): all of it is the proved function `command::run_standard`; here its answer becomes
   the exit status. tests/library holds it to the command.
   A closed pipe and a file beyond the limit of its size are to be writes that fail, and are said, so SIGPIPE and SIGXFSZ are ignored.
   No header is included: the toolchain has none, and the machine need not. On Linux SIGPIPE is 13, SIGXFSZ is 25 and SIG_IGN is 1. */
typedef void (*handler)(int);

handler signal(int number, handler what);
int yeshorit_command(void);

int main(void) {
    signal(13, (handler)1);
    signal(25, (handler)1);
    return yeshorit_command();
}
