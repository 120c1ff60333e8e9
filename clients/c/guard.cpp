// C++ over the header: a handle that frees itself, and texts that are string views.
#include <csignal>

#include "string_interner.h"
#include <cstdio>
#include <memory>
#include <stdexcept>
#include <string_view>

namespace {

struct Free {
  void operator()(interner *h) const { interner_free(h); }
};

void check(interner_status status) {
  if (status != INTERNER_OK) throw std::runtime_error(interner_status_text(status));
}

class Names {
public:
  Names() {
    interner *made;
    check(interner_new(INTERNER_STRING, &made));
    handle.reset(made);
  }

  interner_symbol intern(std::string_view text) {
    interner_symbol symbol;
    check(interner_get_or_intern(handle.get(), text.data(), text.size(), &symbol));
    return symbol;
  }

  // Until the next call of intern.
  std::string_view resolve(interner_symbol symbol) const {
    interner_text text;
    check(interner_resolve(handle.get(), symbol, &text));
    return {text.bytes, text.len};
  }

  // All texts, one after another, until the next call of intern.
  std::string_view joined() const {
    interner_joined texts;
    check(interner_string_joined(handle.get(), &texts));
    return {texts.bytes, texts.bytes_len};
  }

private:
  std::unique_ptr<interner, Free> handle;
};

} // namespace

int main() {
  Names names;
  const interner_symbol tiger = names.intern("Tiger"), horse = names.intern("Horse"), empty = names.intern({});
  Names moved = std::move(names);
  if (moved.intern("Tiger") != tiger || moved.resolve(horse) != "Horse" || !moved.resolve(empty).empty()) return 1;
  if (moved.joined() != "TigerHorse") return 1;
  try {
    moved.resolve(7);
    return 1;
  } catch (const std::runtime_error &error) {
    std::printf("frees itself, and tells: %s\n", error.what());
  }
  return 0;
}
