/* Stacks, of which there are none at first. */
#include "linux.h"

struct addresses { u64 of[4]; };
MAP(stacks, BPFDB_STACK_TRACE, 1024, u32, struct addresses);
MAP(one, BPFDB_STACK_TRACE, 1, u32, struct addresses);

static u64 to_fill[20];

enum { OF_USER = 1 << 8, COMPARE_HASH = 1 << 9, REPLACE = 1 << 10, OF_BUILD = 1 << 11 };

OWN_TEST(stack_numbers)
{
	long kernel, user;

	WANT(get_stackid(context, &stacks, 0) == -EFAULT);
	bpfdb_world.kernel_depth = 2;
	bpfdb_world.kernel_stack[0] = 0xffffffff81000010;
	bpfdb_world.kernel_stack[1] = 0xffffffff81000020;
	WANT(get_stackid(context, &stacks, OF_USER) == -EFAULT);
	bpfdb_world.user_depth = 1;
	bpfdb_world.user_stack[0] = 0x401000;
	kernel = get_stackid(context, &stacks, 0);
	user = get_stackid(context, &stacks, OF_USER);
	WANT(kernel >= 0 && kernel < 1024 && user >= 0 && user < 1024 && kernel != user);
	WANT(get_stackid(context, &stacks, COMPARE_HASH) == kernel);
	WANT(get_stackid(context, &stacks, OF_USER) == user);
	WANT(get_stackid(context, &stacks, 2) == -EFAULT);
	WANT(get_stackid(context, &stacks, OF_BUILD) == -EINVAL);
	return 0;
}

/* Where there is one number, a second stack is refused it, or takes it. */
OWN_TEST(stacks_that_collide)
{
	bpfdb_world.kernel_depth = 1;
	bpfdb_world.kernel_stack[0] = 1;
	WANT(get_stackid(context, &one, 0) == 0);
	bpfdb_world.kernel_stack[0] = 2;
	WANT(get_stackid(context, &one, 0) == -EEXIST);
	WANT(get_stackid(context, &one, REPLACE) == 0);
	WANT(get_stackid(context, &one, 0) == 0);
	bpfdb_world.kernel_stack[0] = 1;
	WANT(get_stackid(context, &one, 0) == -EEXIST);
	return 0;
}

/* (a value has room for four addresses) */
OWN_TEST(stack_that_is_deep)
{
	long number;

	bpfdb_world.kernel_depth = 6;
	for (u32 i = 0; i < 6; i++)
		bpfdb_world.kernel_stack[i] = 0x100 + i;
	number = get_stackid(context, &stacks, 0);
	WANT(number >= 0);
	bpfdb_world.kernel_stack[5] = 7;
	WANT(get_stackid(context, &stacks, 0) == number);
	/* (less the innermost one it is another) */
	WANT(get_stackid(context, &stacks, 1) != number);
	/* (the world has room for sixteen) */
	bpfdb_world.kernel_depth = 99;
	WANT(get_stack(context, to_fill, sizeof(to_fill), 0) == 128 && to_fill[15] == 0 && to_fill[5] == 7);
	return 0;
}

OWN_TEST(stack_copied)
{
	u64 to[4] = { 9, 9, 9, 9 };

	WANT(get_stack(context, to, 32, 0) == -EFAULT && !to[0] && !to[3]);
	bpfdb_world.kernel_depth = 3;
	bpfdb_world.kernel_stack[0] = 0x10;
	bpfdb_world.kernel_stack[1] = 0x20;
	bpfdb_world.kernel_stack[2] = 0x30;
	to[3] = 9;
	WANT(get_stack(context, to, 32, 0) == 24 && to[0] == 0x10 && to[2] == 0x30 && to[3] == 0);
	WANT(get_stack(context, to, 16, 0) == 16 && to[1] == 0x20);
	WANT(get_stack(context, to, 32, 1) == 16 && to[0] == 0x20 && to[1] == 0x30 && to[2] == 0);
	WANT(get_stack(context, to, 12, 0) == -EINVAL);
	WANT(get_stack(context, to, 32, OF_USER) == -EFAULT);
	return 0;
}

TEST(stacks_are_refused)
{
	u64 to[2] = { 9, 9 };

	WANT(get_stackid(context, &stacks, 1 << 12) == -EINVAL && get_stackid(context, &stacks, 1ull << 32) == -EINVAL);
	WANT(get_stackid(context, &stacks, 255) == -EFAULT);
	WANT(get_stack(context, to, 12, 0) == -EINVAL && !to[0] && !to[1]);
	to[0] = 9;
	WANT(get_stack(context, to, 16, 1 << 12) == -EINVAL && !to[0]);
	to[1] = 9;
	WANT(get_stack(context, to, 16, 255) == -EFAULT && !to[1]);
	return 0;
}
