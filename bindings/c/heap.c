/* heap.c: what stands between the library and malloc, for targets for which the Rattle kit has no liblibc_c.a. tools/build compiles it
 * with the kit's compiler, which comes without headers: so malloc and its kin are declared here.
 *
 * The library's code calls these three functions. Its proofs assume of them what the kit's std says: rattle_alloc and rattle_realloc tell
 * whether there is memory, and give a block of n bytes that is aligned to 16, or else a pointer to a byte that nobody owns; after a
 * refusal the old block is as it was; rattle_dealloc frees what either gave. */
typedef __SIZE_TYPE__ size;

void *malloc(size n);
void *realloc(void *block, size n);
void free(void *block);

struct tried {
    _Bool ok;
    void *block;
};

struct tried rattle_alloc(size n, size align);
struct tried rattle_realloc(void *block, size kept, size n, size align);
void rattle_dealloc(void *block);

static char nothing;

static struct tried told(void *block)
{
    struct tried tried = {block != 0, block != 0 ? block : &nothing};
    return tried;
}

/* malloc may give NULL for no bytes, which would be no refusal. */
struct tried rattle_alloc(size n, size align)
{
    return told(malloc(n != 0 ? n : align));
}

struct tried rattle_realloc(void *block, size kept, size n, size align)
{
    (void)kept;
    return told(realloc(block, n != 0 ? n : align));
}

void rattle_dealloc(void *block)
{
    free(block);
}
