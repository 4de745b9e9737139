/* Behind a program whose code counts where it goes (`clang -fprofile-generate`): as it ends, the counts go to the file
   `counts` and the names of its functions to `names`, both in the folder where it runs. tools/unproved reads them. There
   are no headers, since the toolchain has none. */
typedef unsigned long u64;

/* What the compiler writes of a function: the sum of its name and of its shape, and how far behind lie its counts. */
struct counted {
    u64 name, shape;
    long counts, bits, function, values;
    unsigned many;
    unsigned short sites[3];
    unsigned bytes;
};

extern struct counted __start___llvm_prf_data[], __stop___llvm_prf_data[];
extern char __start___llvm_prf_names[], __stop___llvm_prf_names[];
int __llvm_profile_runtime;

int open(const char *, int, ...);
long write(int, const void *, u64);
long syscall(long, ...);

void _exit(int status) {
    int counts = open("counts", 01101, 0600), names = open("names", 01101, 0600);
    for (struct counted *it = __start___llvm_prf_data; it < __stop___llvm_prf_data; it++) {
        u64 head[3] = {it->name, it->shape, it->many};
        write(counts, head, sizeof head);
        write(counts, (char *)it + it->counts, 8 * head[2]);
    }
    write(names, __start___llvm_prf_names, __stop___llvm_prf_names - __start___llvm_prf_names);
    for (;;)
        syscall(231, status);
}
