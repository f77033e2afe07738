/* Runs programs in the kernel by BPF_PROG_TEST_RUN, as a plan asks, and prints what comes of each run: `runner FOLDER`, or,
   as the first process of a machine of its own, the folder /plan, and then the machine is switched off.

   `runner --allowed` only says, by its status, whether bpf(2) is allowed here.

   A line of FOLDER/plan is `OBJECT ENTRY INPUTS`: the program ENTRY of the object is loaded anew, with maps of its own, and
   run on each input of the file in turn. An input is two bytes, its length, the low one first, and so many bytes: the
   packet of a program for XDP, tc or sockets, the arguments of a raw tracepoint, the context of a syscall program. A run
   prints `= RESULT`, of packets with the bytes after it and the cells of arrays that it changed, which are zero again in
   the next one; what can't be loaded prints `refused` and the verifier's last words. */
#define _GNU_SOURCE
#include <bpf/bpf.h>
#include <bpf/libbpf.h>
#include <errno.h>
#include <linux/perf_event.h>
#include <sched.h>
#include <stdio.h>
#include <stdlib.h>
#include <string.h>
#include <sys/ioctl.h>
#include <sys/mman.h>
#include <sys/mount.h>
#include <sys/reboot.h>
#include <sys/resource.h>
#include <sys/syscall.h>
#include <sys/utsname.h>
#include <unistd.h>

enum { MOST_WORDS = 1 << 20, LONGEST_INPUT = 65535 };

static char words[MOST_WORDS];

static int is_silent(enum libbpf_print_level level, const char *format, va_list arguments)
{
	(void)level, (void)format, (void)arguments;
	return 0;
}

/* The last line of what the verifier says that isn't a count. */
static const char *last_words(void)
{
	char *last = words;

	for (char *line = strtok(words, "\n"); line; line = strtok(NULL, "\n"))
		if (strncmp(line, "processed ", 10) && strncmp(line, "verification time", 17) && strncmp(line, "stack depth", 11))
			last = line;
	return last;
}

static int has_packet(enum bpf_prog_type type)
{
	return type == BPF_PROG_TYPE_XDP || type == BPF_PROG_TYPE_SCHED_CLS || type == BPF_PROG_TYPE_SOCKET_FILTER;
}

/* What isn't zero in small arrays, the map's number, the cell's and its bytes, and makes it zero. */
static void print_cells(struct bpf_object *object)
{
	static unsigned char value[256], zero[256];
	struct bpf_map *map;
	int number = 0;

	bpf_object__for_each_map(map, object) {
		unsigned size = bpf_map__value_size(map), most = bpf_map__max_entries(map);

		if (bpf_map__is_internal(map) || bpf_map__type(map) != BPF_MAP_TYPE_ARRAY || size > sizeof(value) || most > 256)
			continue;
		for (unsigned key = 0; key < most; key++) {
			if (bpf_map_lookup_elem(bpf_map__fd(map), &key, value) || !memcmp(value, zero, size))
				continue;
			printf(" %d:%u:", number, key);
			for (unsigned i = 0; i < size; i++)
				printf("%02x", value[i]);
			bpf_map_update_elem(bpf_map__fd(map), &key, zero, BPF_ANY);
		}
		number++;
	}
}

static void run(struct bpf_object *object, int program, enum bpf_prog_type type, unsigned char *input, unsigned size)
{
	static unsigned char after[LONGEST_INPUT + 1];
	LIBBPF_OPTS(bpf_test_run_opts, options);
	int error;

	if (has_packet(type)) {
		options.data_in = input;
		options.data_size_in = size;
		options.data_out = after;
		options.data_size_out = sizeof(after);
	} else {
		options.ctx_in = size ? input : NULL;
		options.ctx_size_in = size;
	}
	error = bpf_prog_test_run_opts(program, &options);
	if (error) {
		printf("= error %d\n", -error);
		return;
	}
	printf("= %u", options.retval);
	if (has_packet(type)) {
		printf(" ");
		for (unsigned i = 0; i < options.data_size_out; i++)
			printf("%02x", after[i]);
	}
	if (has_packet(type))
		print_cells(object);
	printf("\n");
}

static void run_all(struct bpf_object *object, int program, enum bpf_prog_type type, const char *inputs)
{
	static unsigned char input[LONGEST_INPUT];
	FILE *file = fopen(inputs, "r");
	int low, high;

	if (!file) {
		printf("no file %s\n", inputs);
		return;
	}
	while ((low = getc(file)) != EOF && (high = getc(file)) != EOF) {
		unsigned size = low | high << 8;

		if (fread(input, 1, size, file) != size) {
			printf("a short file: %s\n", inputs);
			break;
		}
		run(object, program, type, input, size);
	}
	fclose(file);
}

/* Opens the buffer of processor 0 in each perf event array. */
static void open_buffers(struct bpf_object *object)
{
	struct perf_event_attr event = {
		.size = sizeof(event),
		.type = PERF_TYPE_SOFTWARE,
		.config = PERF_COUNT_SW_BPF_OUTPUT,
		.sample_type = PERF_SAMPLE_RAW,
		.sample_period = 1,
	};
	struct bpf_map *map;

	bpf_object__for_each_map(map, object) {
		int buffer = -1, processor = 0;

		if (bpf_map__type(map) == BPF_MAP_TYPE_PERF_EVENT_ARRAY)
			buffer = syscall(SYS_perf_event_open, &event, -1, processor, -1, 0);
		if (buffer < 0 || mmap(NULL, 17 * 4096, PROT_READ | PROT_WRITE, MAP_SHARED, buffer, 0) == MAP_FAILED)
			continue;
		ioctl(buffer, PERF_EVENT_IOC_ENABLE, 0);
		bpf_map_update_elem(bpf_map__fd(map), &processor, &buffer, BPF_ANY);
	}
}

/* Runs one line of the plan. */
static void run_line(const char *object, const char *entry, const char *inputs)
{
	LIBBPF_OPTS(bpf_object_open_opts, options, .kernel_log_buf = words, .kernel_log_size = sizeof(words), .kernel_log_level = 4);
	struct bpf_object *opened = bpf_object__open_file(object, &options);
	struct bpf_program *program, *chosen = NULL;
	struct bpf_map *map;
	int error;

	printf("# %s %s %s\n", object, entry, inputs);
	if (!opened) {
		printf("refused %d as an object\n", errno);
		return;
	}
	bpf_object__for_each_program(program, opened) {
		int is_chosen = !strcmp(bpf_program__name(program), entry);

		bpf_program__set_autoload(program, is_chosen);
		if (is_chosen)
			chosen = program;
	}
	/* (what has no size is for whoever loads it to say) */
	bpf_object__for_each_map(map, opened)
		if (!bpf_map__max_entries(map) && (bpf_map__type(map) == BPF_MAP_TYPE_HASH || bpf_map__type(map) == BPF_MAP_TYPE_ARRAY))
			bpf_map__set_max_entries(map, 4096);
	words[0] = 0;
	error = chosen ? bpf_object__load(opened) : -ENOENT;
	if (error)
		printf("refused %d: %s\n", -error, last_words());
	else
		open_buffers(opened);
	if (!error)
		run_all(opened, bpf_program__fd(chosen), bpf_program__type(chosen), inputs);
	bpf_object__close(opened);
}

int main(int count, char **arguments)
{
	int is_first = getpid() == 1;
	const char *folder = is_first ? "/plan" : count == 2 ? arguments[1] : ".";
	char line[512], object[200], entry[100], inputs[200];
	cpu_set_t processor = { 0 };
	struct utsname name;
	FILE *plan;

	if (count == 2 && !strcmp(folder, "--allowed"))
		return bpf_map_create(BPF_MAP_TYPE_ARRAY, NULL, 4, 4, 1, NULL) < 0;
	CPU_SET(0, &processor);
	sched_setaffinity(0, sizeof(processor), &processor);
	if (is_first) {
		mount("none", "/sys", "sysfs", 0, NULL);
		mount("none", "/proc", "proc", 0, NULL);
		setrlimit(RLIMIT_MEMLOCK, &(struct rlimit){ RLIM_INFINITY, RLIM_INFINITY });
	}
	libbpf_set_print(is_silent);
	uname(&name);
	printf("kernel %s\n", name.release);
	plan = chdir(folder) ? NULL : fopen("plan", "r");
	while (plan && fgets(line, sizeof(line), plan))
		if (sscanf(line, "%199s %99s %199s", object, entry, inputs) == 3)
			run_line(object, entry, inputs);
	printf("done\n");
	fflush(stdout);
	if (is_first) {
		sync();
		sleep(1);
		reboot(RB_POWER_OFF);
	}
	return !plan;
}
