/* Misuses of timers.hpp that the compiler refuses. With MISUSE=0 it compiles, with the others it must not.
 * cpp.bats compares what the compiler says with the comment of each. */
#include <functional>
#include <memory>
#include <utility>

#include <timers.hpp>

using namespace std::chrono_literals;

struct only_moved {
	int number;
	only_moved() = default;
	only_moved(only_moved &&) = default;
	only_moved &operator=(only_moved &&) = default;
};
static_assert(std::is_trivially_copyable_v<only_moved> && !std::is_copy_constructible_v<only_moved>);

struct nine_bytes { char bytes[9]; };

struct owner {
	int *block;
	owner() : block(new int(0)) {}
	owner(const owner &other) : block(new int(*other.block)) {}
	owner &operator=(const owner &) = delete;
	~owner() { delete block; }
};
static_assert(sizeof(owner) <= 8 && std::is_copy_constructible_v<owner>);

int main()
{
	timing::timers<> timers;
#if MISUSE == 1     /* an action can be copied */
	timing::timers<std::chrono::milliseconds, std::unique_ptr<int>> others;
#elif MISUSE == 2   /* an action can be copied */
	timing::timers<std::chrono::milliseconds, owner> others;
#elif MISUSE == 3   /* an action can be copied */
	timing::timers<std::chrono::milliseconds, only_moved> others;
#elif MISUSE == 4   /* an action can be copied */
	timing::timers<std::chrono::milliseconds, nine_bytes> others;
#elif MISUSE == 5   /* an action can be copied */
	timing::timers<std::chrono::milliseconds, std::function<void()>> others;
#elif MISUSE == 6   /* deleted */
	timing::timers<> others = timers;
#elif MISUSE == 7   /* deleted */
	timing::timers<> others;
	others = timers;
#elif MISUSE == 8   /* an interval is a whole number */
	timers.start(std::chrono::duration<double>(1.5), 1);
#elif MISUSE == 9   /* too far apart */
	timing::timers<std::chrono::duration<int, std::ratio<1, 4611686014132420609>>> others;
	others.start(std::chrono::duration<int, std::ratio<1, 1000000007>>(1), 1);
#elif MISUSE == 10  /* no matching */
	timers.start_at(500ms, 1);
#elif MISUSE == 11  /* no matching */
	timing::handle handle;
	timers.set_at(handle, 500ms, 1);
#elif MISUSE == 12  /* no matching */
	timers.take(500ms);
#elif MISUSE == 13  /* no matching */
	timers.start_at(std::chrono::steady_clock::now(), 1);
#elif MISUSE == 14  /* no matching */
	timers.start(timers.now(), 1);
#elif MISUSE == 15  /* deleted */
	timing::timer<timing::timers<>> one(timers), other(one);
#elif MISUSE == 16  /* over a real clock give start_at a time point */
	timing::timers<std::chrono::milliseconds, int, std::chrono::steady_clock> others;
	others.start(1s, 1);
#else
	timers.start(1s, 1);
#endif
}

/* Why the namespace isn't `timers`, and why that of a using directive is written out all the same: C has a struct of the name. */
#if MISUSE == 17    /* is ambiguous */
using namespace timing;
timers<> others;
#elif MISUSE == 18  /* as different kind of */
namespace timers {}
#endif
