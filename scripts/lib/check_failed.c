// Tells that a run-time check failed, in a program that was built without any proof. Such a check ends the program by SIGILL, which it
// still does behind that line. No header is read, since the toolchain's clang has none.
typedef void Handler(int);
Handler *signal(int number, Handler *handler);
long write(int file, const void *bytes, unsigned long length);

static const int ILLEGAL = 4;
static const char TEXT[] = "flatpq: a run-time check failed: this program was built without any proof\n";

// The step that failed is made once more behind this, and then ends the program.
static void tell(int number) {
  (void)!write(2, TEXT, sizeof TEXT - 1);
  signal(number, (Handler *)0);
}

__attribute__((constructor)) static void listen(void) { signal(ILLEGAL, tell); }
