/* Memory: what a call builds lives until the call ends, and the next call uses it again. */

enum { CHUNK_SIZE = 65536 };

typedef struct Chunk {
    struct Chunk *older;
    size_t used;
    _Alignas(16) unsigned char bytes[CHUNK_SIZE];
} Chunk;

static Chunk *spare_chunks;

static void *must_have(void *memory)
{
    if (memory == NULL)
        abort();
    return memory;
}

static void add_chunk(Chunk **chunks)
{
    Chunk *chunk = spare_chunks;
    if (chunk != NULL)
        spare_chunks = chunk->older;
    else
        chunk = must_have(malloc(sizeof *chunk));
    chunk->older = *chunks;
    chunk->used = 0;
    *chunks = chunk;
}

static void *take_memory(Chunk **chunks, size_t size)
{
    size = (size + 15) / 16 * 16;
    if (*chunks == NULL || CHUNK_SIZE - (*chunks)->used < size)
        add_chunk(chunks);
    void *memory = (*chunks)->bytes + (*chunks)->used;
    (*chunks)->used += size;
    return memset(memory, 0, size);
}

static void give_back_memory(Chunk *chunks)
{
    while (chunks != NULL) {
        Chunk *older = chunks->older;
        chunks->older = spare_chunks;
        spare_chunks = chunks;
        chunks = older;
    }
}
