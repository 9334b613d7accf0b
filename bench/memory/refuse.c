/* Refuses requests for memory of the program into which it is loaded before the C library, and counts them, for refusing.py,
   which says by the numbers in the file that REFUSED names what is refused. Memory that malloc takes of the system by mmap
   is counted with the request that it is taken for.

   Either one request is refused, and the program goes on. Or, where REFUSED_TALK names a socket, some of the requests are
   refused one after another, each in a copy of the process that begins at that request, while the process itself waits: so
   what comes before is not done again each time. When a copy has ended, the number and its status go to the socket. Where
   the answer comes, the files of the store, and those to which the standard streams go by REFUSED_OUT and REFUSED_ERR, are
   put back as they were before the copy, and the process goes on to its next request. */
#include <errno.h>
#include <fcntl.h>
#include <stdlib.h>
#include <sys/mman.h>
#include <sys/socket.h>
#include <sys/wait.h>
#include <unistd.h>

#define FILES 32                       /* open files of the process, at most */
#define LONGEST_COPY 600               /* seconds */
#define MOST_BYTES (16L << 20)         /* of a file that is put back */
#define KEPT 4                         /* files that are put back */

extern void *__libc_malloc(size_t);
extern void *__libc_calloc(size_t, size_t);
extern void *__libc_realloc(void *, size_t);
extern void *__libc_memalign(size_t, size_t);

/* What is refused: requests from the first to the last one, each so many; and whether those behind a refused one are too.
   How many there were is kept up while the program runs, so that it is told however that ends. */
static struct numbers { long first, last, every, lasting, asked; } none, *numbers = &none;

static struct stored { const char *name; char *bytes; long size; } stored[KEPT];
static int talk = -1, is_copy;

/* Room that malloc knows nothing of. */
static void *room(long bytes, int file)
{
    void *place = mmap(0, bytes, PROT_READ | PROT_WRITE, file < 0 ? MAP_PRIVATE | MAP_ANONYMOUS : MAP_SHARED, file, 0);
    if (place == MAP_FAILED)
        abort();
    return place;
}

__attribute__((constructor)) static void begin(void)
{
    const char *name = getenv("REFUSED"), *socket = getenv("REFUSED_TALK");
    int file = name ? open(name, O_RDWR | O_CLOEXEC) : -1;
    if (file < 0)
        return;
    numbers = room(sizeof none, file);
    close(file);
    if (!socket)
        return;
    talk = atoi(socket);
    const char *names[KEPT] = {"vault.db", "vault.db-wal", getenv("REFUSED_OUT"), getenv("REFUSED_ERR")};
    for (int at = 0; at < KEPT; at++)
        stored[at] = (struct stored){names[at], room(MOST_BYTES, -1), 0};
}

/* Keeps what a file has, if it is there. */
static void keep(struct stored *each)
{
    int file = open(each->name, O_RDONLY | O_CLOEXEC);
    each->size = file < 0 ? -1 : pread(file, each->bytes, MOST_BYTES, 0);
    if (each->size == MOST_BYTES || (file >= 0 && (each->size < 0 || close(file))))
        abort();
}

/* Gives a file back what it had: the same file, since the process may have it open. */
static void put_back(struct stored *each)
{
    if (each->size < 0) {
        unlink(each->name);
        return;
    }
    int file = open(each->name, O_WRONLY | O_CLOEXEC);
    if (file < 0 || pwrite(file, each->bytes, each->size, 0) != each->size || ftruncate(file, each->size) || close(file))
        abort();
}

/* Waits for a copy, tells how it ended, and puts back what it has changed of what both have, when that was looked at. */
static void await(pid_t copy, long number, const off_t *places)
{
    int status;
    char answer;
    if (copy < 0 || waitpid(copy, &status, 0) != copy)
        abort();
    long told[] = {number, status};
    if (send(talk, told, sizeof told, 0) != sizeof told || recv(talk, &answer, 1, 0) != 1)
        abort();
    for (int at = 0; at < KEPT; at++)
        put_back(&stored[at]);
    for (int file = 0; file < FILES; file++)
        if (places[file] >= 0)
            lseek(file, places[file], SEEK_SET);
}

/* Whether this is a copy of the process, in which the request is to be refused. */
static int is_copied(long number)
{
    off_t places[FILES];
    for (int file = 0; file < FILES; file++)
        places[file] = lseek(file, 0, SEEK_CUR);
    for (int at = 0; at < KEPT; at++)
        keep(&stored[at]);
    pid_t copy = fork();
    if (copy) {
        await(copy, number, places);
        return 0;
    }
    is_copy = 1;
    close(talk);
    alarm(LONGEST_COPY);
    return 1;
}

/* Counts a request, and says whether it is refused. */
static int refused(void)
{
    if (is_copy)
        return numbers->lasting;
    long number = __atomic_add_fetch(&numbers->asked, 1, __ATOMIC_RELAXED);
    if (!numbers->first || number < numbers->first)
        return 0;
    if (talk < 0)
        return number == numbers->first || numbers->lasting;
    int before = errno, is_chosen = number <= numbers->last && (number - numbers->first) % numbers->every == 0;
    int is_refused = is_chosen && is_copied(number);
    errno = before;
    return is_refused;
}

static void *refusal(void)
{
    errno = ENOMEM;
    return 0;
}

void *malloc(size_t bytes)
{
    return refused() ? refusal() : __libc_malloc(bytes);
}

void *calloc(size_t items, size_t bytes)
{
    return refused() ? refusal() : __libc_calloc(items, bytes);
}

/* A block that is given back is no request. */
void *realloc(void *block, size_t bytes)
{
    return (bytes || !block) && refused() ? refusal() : __libc_realloc(block, bytes);
}

void *memalign(size_t align, size_t bytes)
{
    return refused() ? refusal() : __libc_memalign(align, bytes);
}

void *aligned_alloc(size_t align, size_t bytes)
{
    return memalign(align, bytes);
}

int posix_memalign(void **place, size_t align, size_t bytes)
{
    void *block = memalign(align, bytes);
    if (!block)
        return ENOMEM;
    *place = block;
    return 0;
}
