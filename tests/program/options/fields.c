/* A program that reads a field where the headers had it, by one relocation, in its first instruction. */
struct task { unsigned long long first; unsigned int second; } __attribute__((preserve_access_index));

__attribute__((section("enter"), used)) unsigned long long second_of(struct task *task) { return task->second; }
