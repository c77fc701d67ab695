# shellcheck shell=bash disable=SC2154
# What tests/platforms plays of the wrapper on a platform: edges, with allocations that are counted, random calls, and a desk.
strict+=" -Ibindings/cpp/include -Itests/c"
cpp() {
    build_counted bindings/cpp/tests/agree.cpp
    runs
    needs_traces
    build bindings/cpp/tests/replay.cpp
    replays "$made"/timers.[0-9]
    build bindings/cpp/tests/desk_agree.cpp -pthread
    runs
}
