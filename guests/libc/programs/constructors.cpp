// Constructors of static objects come before main, in the order of their definition, and their
// destructors behind it in the reverse order (ISO/IEC 14882:2014, 3.6.2 and 3.6.3); a static object
// of a function is made when the function is first called (6.7). There is no C++ library here: no
// headers of its own, no exceptions, no new.
//
// Expect: made first
//         made second
//         main
//         made local
//         ended local
//         ended second
//         ended first
// and `process 1 status 0`.
#include <stdio.h>

class Told {
public:
  explicit Told(const char *name) : name(name) {
    printf("made %s\n", name);
  }
  ~Told() {
    printf("ended %s\n", name);
  }

private:
  const char *name;
};

static Told first("first"), second("second");

static void call() {
  static Told local("local");
}

int main() {
  puts("main");
  call();
  call();
}
