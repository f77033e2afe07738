/* Answers the port of the service that a packet names. */
typedef unsigned char u8;
typedef unsigned short u16;
typedef unsigned long long u64;

struct packet {
	u8 port[2];
	u8 length;
	char name[];
};

struct service {
	char name[8];
	u16 port;
};

static __attribute__((noinline)) void read_service(struct service *service, const struct packet *p)
{
	service->port = p->port[0] << 8 | p->port[1];
	for (u64 i = 0; i < p->length; i++)
		service->name[i] = p->name[i];
}

__attribute__((section("filter"))) u64 port_of(const struct packet *p, u64 size)
{
	struct service service = {};

	read_service(&service, p);
	return service.port;
}
