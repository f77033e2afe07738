/* A program for tracing that reads a field where the headers had it, by a relocation, and calls a helper. */
typedef unsigned int u32;
typedef unsigned long long u64;

struct task {
	u64 first;
	u32 second;
} __attribute__((preserve_access_index));

static u64 (*current)(void) = (void *)14;

__attribute__((section("tp/enter"))) int field(struct task *task)
{
	return task->second;
}

__attribute__((section("tp/enter"))) int thread(struct task *task)
{
	return (current() & 0xffff) + task->second;
}
