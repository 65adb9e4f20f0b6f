/* Counts the requests for memory that a program makes, and refuses some of them. The program is run
 * with this library preloaded, and asks for blocks of certain sizes as marks: 4240 bytes where a
 * line begins, 4242 where a window opens and 4243 where it closes. Only requests within a window
 * count.
 *
 * REQUESTS_LOG=FILE      what is written: for each line how many windows it had, how many blocks
 *                        there were at its end, asked for in a window or not, how many requests it
 *                        made, for how many bytes in all, modulo 2^64, and the numbers of those
 *                        refused; and `end` at the end
 * REFUSE_AT=LINE:N,..    refuses the Nth request of a line
 * REFUSE_CHANCE=0.05     refuses each with this chance, drawn from REFUSE_SEED=N
 * REFUSE_NEXT_TOO=1      refuses each behind a refused one in a line with a chance of 1/2
 * COUNT_UP_TO=4096       counts also, in a window or not, the requests for at most so many bytes,
 *                        and writes at the end how many there were, and the most bytes of their
 *                        blocks at one time
 *
 * It is built without headers: the toolchain has none. glibc has each call under a second name. */
typedef __SIZE_TYPE__ size_t;
typedef unsigned long u64;

void *__libc_malloc(size_t bytes);
void *__libc_calloc(size_t count, size_t bytes);
void *__libc_realloc(void *block, size_t bytes);
void __libc_free(void *block);
char *getenv(const char *name);
u64 strtoul(const char *text, char **end, int base);
double strtod(const char *text, char **end);
void srand48(long seed);
double drand48(void);
int dprintf(int file, const char *format, ...);
int open(const char *path, int flags, ...);
void _exit(int status);

enum { LINE_BEGINS = 4240, WINDOW_OPENS = 4242, WINDOW_CLOSES = 4243 };
enum { MOST_NAMED = 4096, MOST_OF_LINE = 4096, CREATE_AND_WRITE = 01 | 0100 | 01000 };

/* What stands before each block: its bytes, or 0 for more than COUNT_UP_TO, and 8 bytes more, since a
 * block is aligned to 16. One for which more alignment is asked would have none: the program asks for
 * no such block. */
typedef struct { u64 bytes, unused; } Head;

/* The requests that REFUSE_AT names. */
static struct { u64 line, request; } named[MOST_NAMED];
static u64 named_count;
static double chance;
static int refuses_next_too;

static int log_file = -1, is_open;
static u64 line, live;
/* Of the line. */
static u64 requests, bytes_asked, windows, refused[MOST_OF_LINE], refused_count;
/* Of the requests for few bytes. */
static u64 most_bytes, small_requests, held, most_held;

/* Writes the record of the line that ends. */
static void end_line(void)
{
    if (line) {
        dprintf(log_file, "%lu %lu %lu %lu", windows, live, requests, bytes_asked);
        for (u64 place = 0; place < refused_count; place++)
            dprintf(log_file, " %lu", refused[place]);
        dprintf(log_file, "\n");
    }
    requests = bytes_asked = windows = refused_count = 0;
}

/* Takes note of a mark, and returns whether the number of bytes is one. */
static int is_mark(size_t bytes)
{
    if (bytes == LINE_BEGINS && !is_open) {
        end_line();
        line++;
    } else if (bytes == WINDOW_OPENS) {
        is_open = 1;
    } else if (bytes == WINDOW_CLOSES) {
        windows += is_open;
        is_open = 0;
    } else {
        return 0;
    }
    return 1;
}

/* Returns whether REFUSE_AT names the request that is made. */
static int is_named(void)
{
    for (u64 place = 0; place < named_count; place++)
        if (named[place].line == line && named[place].request == requests)
            return 1;
    return 0;
}

/* Counts a request for so many bytes, and returns whether it is refused. */
static int is_refused(size_t bytes)
{
    requests++;
    bytes_asked += bytes;
    int drawn = chance > 0 && drand48() < chance;
    if (refuses_next_too && refused_count)
        drawn |= drand48() < 0.5;
    if (!(drawn || is_named()) || refused_count == MOST_OF_LINE)
        return 0;
    refused[refused_count++] = requests;
    return 1;
}

/* Returns the block behind a head, if there is one. */
static void *block_of(Head *head, size_t bytes)
{
    if (!head)
        return 0;
    live++;
    head->bytes = bytes <= most_bytes ? bytes : 0;
    small_requests += bytes <= most_bytes;
    held += head->bytes;
    if (most_held < held)
        most_held = held;
    return head + 1;
}

void *malloc(size_t bytes)
{
    if (!is_mark(bytes) && is_open && is_refused(bytes))
        return 0;
    return block_of(__libc_malloc(sizeof(Head) + bytes), bytes);
}

void *calloc(size_t count, size_t bytes)
{
    if (is_open && is_refused(count * bytes))
        return 0;
    return block_of(__libc_calloc(1, sizeof(Head) + count * bytes), count * bytes);
}

void *realloc(void *block, size_t bytes)
{
    if (!block)
        return malloc(bytes);
    if (!is_mark(bytes) && is_open && is_refused(bytes))
        return 0;
    Head was = *((Head *)block - 1);
    Head *head = __libc_realloc((Head *)block - 1, sizeof(Head) + bytes);
    live -= head != 0;
    held -= head ? was.bytes : 0;
    return block_of(head, bytes);
}

void free(void *block)
{
    if (block) {
        Head *head = (Head *)block - 1;
        live--;
        held -= head->bytes;
        __libc_free(head);
    }
}

/* Reads pairs of a line and a request, as 3:1,7:2. */
static void read_named(char *text)
{
    while (text && *text && named_count < MOST_NAMED) {
        named[named_count].line = strtoul(text, &text, 10);
        named[named_count++].request = strtoul(text + 1, &text, 10);
        text += *text != 0;
    }
}

__attribute__((constructor)) static void begin(void)
{
    const char *drawn = getenv("REFUSE_CHANCE"), *seed = getenv("REFUSE_SEED");
    const char *most = getenv("COUNT_UP_TO");
    most_bytes = most ? strtoul(most, 0, 10) : 0;
    chance = drawn ? strtod(drawn, 0) : 0;
    srand48(seed ? (long)strtoul(seed, 0, 10) : 1);
    refuses_next_too = getenv("REFUSE_NEXT_TOO") != 0;
    read_named(getenv("REFUSE_AT"));
    log_file = open(getenv("REQUESTS_LOG"), CREATE_AND_WRITE, 0600);
    if (log_file < 0)
        _exit(99);
}

__attribute__((destructor)) static void end(void)
{
    end_line();
    if (most_bytes)
        dprintf(log_file, "small %lu %lu\n", small_requests, most_held);
    dprintf(log_file, "end\n");
}
