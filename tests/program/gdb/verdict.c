/* A verdict that is changed by a line which has no code of its own at -O2: both values are made in the condition's. */
struct packet { unsigned char kind, flag; };
unsigned long verdict(struct packet *p, long n)
{
	int action = 2;

	if (n >= 2 && p->kind == 7 && p->flag & 1)
		action = 1;
	return action;
}
