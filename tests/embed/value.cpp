// Looks at the value of a Result in a way: with 0 to 3 words, of one that has a value, and with 4 to 7 of an error.
#include <lemonrudder.hpp>
#include <utility>

namespace lr = lemonrudder;

int main(int count, char**) {
  lr::Result<int> result = 5;
  if (count > 4) result = lr::Error(LR_E_IDLE);
  switch (count % 4) {
    case 0:
      return *result != 5;
    case 1:
      return *std::move(result) != 5;
    case 2:
      return *result.operator->() != 5;
    default:
      return *std::as_const(result) != 5;
  }
}
