/* Two calls of a helper that the library has, and a mock may answer. */
#include "linux.h"

TEST(mocked)
{
	u64 first = get_current_pid_tgid();

	return (u64)(u32)get_current_pid_tgid() << 32 | (u32)first;
}
