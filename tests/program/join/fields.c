/* A field whose place a loader is to find, in .text behind the section. */
struct thing {
    int first, second;
} __attribute__((preserve_access_index));
static __attribute__((noinline)) int second(struct thing *it) { return it->second; }
__attribute__((section("prog"), used)) int of_field(struct thing *it) { return second(it); }
