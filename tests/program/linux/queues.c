/* Queues and stacks. */
#include "linux.h"

MAP_WITHOUT_KEY(queue, BPFDB_QUEUE, 3, u64);
MAP_WITHOUT_KEY(stack, BPFDB_STACK, 3, u32);

MAP_WITHOUT_KEY(heavy, BPFDB_QUEUE, 10, u8[60000]);
static u8 bytes[60000];

/* (The heap has room for three of them.) */
OWN_TEST(queue_without_room)
{
	for (u32 i = 0; i < 3; i++)
		WANT(map_push(&heavy, bytes, ANY) == 0);
	WANT(map_push(&heavy, bytes, ANY) == -ENOMEM && bpfdb_world.no_room == 1);
	WANT(map_pop(&heavy, bytes) == 0 && map_push(&heavy, bytes, ANY) == 0);
	return 0;
}

TEST(queue_in_order)
{
	u64 value = 5;

	WANT(map_pop(&queue, &value) == -ENOENT && value == 0);
	value = 6;
	WANT(map_peek(&queue, &value) == -ENOENT && value == 0);
	for (u32 i = 1; i <= 3; i++) {
		value = i;
		WANT(map_push(&queue, &value, ANY) == 0);
	}
	WANT(map_push(&queue, &value, ANY) == -E2BIG);
	WANT(map_push(&queue, &value, NOEXIST) == -EINVAL);
	WANT(map_push(&queue, &value, 3) == -EINVAL);
	WANT(map_peek(&queue, &value) == 0 && value == 1);
	WANT(map_pop(&queue, &value) == 0 && value == 1);
	value = 4;
	WANT(map_push(&queue, &value, ANY) == 0);
	/* (it is full, and its oldest goes) */
	value = 5;
	WANT(map_push(&queue, &value, EXIST) == 0);
	WANT(map_pop(&queue, &value) == 0 && value == 3);
	WANT(map_pop(&queue, &value) == 0 && value == 4);
	WANT(map_pop(&queue, &value) == 0 && value == 5);
	WANT(map_pop(&queue, &value) == -ENOENT);
	return 0;
}

TEST(stack_in_turn)
{
	u32 value = 5;

	WANT(map_pop(&stack, &value) == -ENOENT && value == 0);
	for (u32 i = 1; i <= 3; i++) {
		value = i;
		WANT(map_push(&stack, &value, ANY) == 0);
	}
	WANT(map_push(&stack, &value, ANY) == -E2BIG);
	WANT(map_peek(&stack, &value) == 0 && value == 3);
	WANT(map_pop(&stack, &value) == 0 && value == 3);
	value = 7;
	WANT(map_push(&stack, &value, ANY) == 0);
	value = 8;
	WANT(map_push(&stack, &value, EXIST) == 0);
	WANT(map_pop(&stack, &value) == 0 && value == 8);
	WANT(map_pop(&stack, &value) == 0 && value == 7);
	WANT(map_pop(&stack, &value) == 0 && value == 2);
	WANT(map_pop(&stack, &value) == -ENOENT);
	return 0;
}
