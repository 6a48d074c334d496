/* What the driver has of Mach: traps, the console, and requests to the kernel. There are no headers
   or libraries of Mach here: messages are laid out by hand, as MIG's stubs for i386 lay them out.
   */
typedef unsigned u32;

enum { MOVE_RECEIVE = 16, MOVE_SEND, MOVE_ONCE, COPY_SEND, MAKE_SEND, MAKE_ONCE };
enum {
    HAS_SEND = 0x10000,
    HAS_RECEIVE = 0x20000,
    HAS_ONCE = 0x40000,
    IS_SET = 0x80000,
    IS_DEAD = 0x100000
};
enum { SEND = 1, RECEIVE = 2, RECEIVE_TIMEOUT = 0x100, COMPLEX = 0x80000000 };
enum { TIMED_OUT = 0x10000004, TOO_LARGE = 0x10004004 };
enum {
    TASK_CREATE = 2007,
    TASK_TERMINATE,
    THREAD_SET_STATE = 2018,
    VM_DEALLOCATE = 2023,
    VM_INHERIT = 2025,
    THREAD_CREATE = 2061,
    THREAD_RESUME = 2063,
    PORT_NAMES = 3200,
    PORT_TYPE,
    PORT_RENAME,
    PORT_ALLOCATE_NAME,
    PORT_ALLOCATE,
    PORT_DESTROY,
    PORT_DEALLOCATE,
    PORT_GET_REFS,
    PORT_GET_SET_STATUS = 3212,
    PORT_REQUEST_NOTIFICATION = 3214,
    PORT_INSERT_RIGHT,
    PORT_EXTRACT_RIGHT,
    PORT_GET_RECEIVE_STATUS
};

/* Descriptors of one item in line: a number, a name, and a port by its disposition. */
#define ITEM(type) ((type) | 32 << 8 | 1 << 16 | 1 << 28)
#define BOOLEAN ITEM(0)
#define INTEGER ITEM(2)
#define NAME ITEM(15)
#define INTEGERS(count) (2 | 32 << 8 | (count) << 16 | 1 << 28)

/* Traps: a call gate with the trap's number, parameters on the stack. */
int mach_msg(void *, u32, u32, u32, u32, u32, u32);
u32 mach_reply_port(void), mach_task_self(void);
int trap_insert_right(u32, u32, u32, u32);
void mach_print(const char *);
#define TRAP(name, n) ".globl " #name "\n" #name ": movl $-" #n ",%eax; lcall $7,$0; ret\n"
asm(".globl _start\n_start: call driver\n" TRAP(mach_msg, 25) TRAP(mach_reply_port, 26)
        TRAP(mach_task_self, 28) TRAP(mach_print, 30) TRAP(trap_insert_right, 74));

/* The console: lines are gathered, since each call of mach_print takes long. */
static char line[240];
static int line_length;

static void flush(void) {
    line[line_length] = 0;
    mach_print(line);
    line_length = 0;
}
static void print_character(char c) {
    line[line_length++] = c;
    if (line_length > 200) flush();
}
static void print(const char *s) {
    while (*s) print_character(*s++);
}
static void print_end(void) {
    print_character('\n');
    flush();
}

static void print_digits(u32 x, int digits) {
    while (digits--) print_character("0123456789abcdef"[x >> 4 * digits & 15]);
}

static void print_bytes(const void *bytes, u32 size) {
    for (u32 i = 0; i < size; i++) print_digits(((const unsigned char *)bytes)[i], 2);
}

static void write_header(u32 *message, u32 bits, u32 size, u32 to, u32 back, u32 id) {
    message[0] = bits;
    message[1] = size;
    message[2] = to;
    message[3] = back;
    message[4] = 0;
    message[5] = id;
}

/* Sends a message without a body: its code. */
static int send_empty(u32 *message, u32 disposition, u32 to, u32 id) {
    write_header(message, disposition, 24, to, 0, id);
    return mach_msg(message, SEND, 24, 0, 0, 0, 0);
}

/* Requests of the driver. The body is in m from m[6] on; the answer's code is m[7], its results are
   from m[8] on. */
static u32 m[64], self, reply;

static u32 request_with(u32 bits, u32 task, u32 id, u32 words) {
    write_header(m, bits | MAKE_ONCE << 8 | COPY_SEND, 24 + 4 * words, task, reply, id);
    u32 failed = mach_msg(m, SEND | RECEIVE, m[1], sizeof m, reply, 0, 0);
    return failed ? failed : m[7];
}
static u32 request(u32 task, u32 id, u32 words) { return request_with(0, task, id, words); }

static u32 request_1(u32 task, u32 id, u32 type, u32 value) {
    m[6] = type;
    m[7] = value;
    return request(task, id, 2);
}

static u32 request_2(u32 task, u32 id, u32 type, u32 value, u32 type_2, u32 value_2) {
    m[6] = type;
    m[7] = value;
    m[8] = type_2;
    m[9] = value_2;
    return request(task, id, 4);
}

static u32 allocate_receive(u32 task, u32 name) {
    return request_2(task, PORT_ALLOCATE_NAME, INTEGER, 1, NAME, name);
}
static u32 rename(u32 task, u32 old, u32 new) {
    return request_2(task, PORT_RENAME, NAME, old, NAME, new);
}
static u32 destroy(u32 name) { return request_1(self, PORT_DESTROY, NAME, name); }
static u32 deallocate(u32 name) { return request_1(self, PORT_DEALLOCATE, NAME, name); }

/* The type of a name: 0 if there is none. */
static u32 type_of(u32 task, u32 name) { return request_1(task, PORT_TYPE, NAME, name) ? 0 : m[9]; }

/* The driver's own name of a right that it takes from a task: 0 if it did not get it. */
static u32 extract(u32 task, u32 name, u32 disposition) {
    u32 failed = request_2(task, PORT_EXTRACT_RIGHT, NAME, name, INTEGER, disposition);
    return failed || !~m[9] ? 0 : m[9];
}

static u32 insert(u32 task, u32 name, u32 right, u32 disposition) {
    m[6] = NAME;
    m[7] = name;
    m[8] = ITEM(disposition);
    m[9] = right;
    return request_with(COMPLEX, task, PORT_INSERT_RIGHT, 4);
}

/* What the driver itself needs, and what has to succeed. */
static void must(u32 code, const char *what) {
    if (!code) return;
    print("! ");
    print(what);
    print_character(' ');
    print_digits(code, 8);
    print_end();
}
