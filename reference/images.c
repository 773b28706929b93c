/* Stored carriers: images of 512-byte blocks. */

enum { BLOCK_SIZE = 512, BLOCK_HEAD = 4, BLOCK_PAYLOAD = 504, BLOCK_CHECK = 508, EDITION = 1 };

static size_t block_count(size_t size)
{
    return size / BLOCK_PAYLOAD + (size % BLOCK_PAYLOAD != 0);
}

static size_t used_of(size_t size, size_t number)
{
    size_t left = size - number * BLOCK_PAYLOAD;
    return left < BLOCK_PAYLOAD ? left : BLOCK_PAYLOAD;
}

static uint32_t check_of(const uint8_t *block)
{
    uint32_t sum = 0;
    for (uint32_t i = 0; i < BLOCK_CHECK; i++)
        sum += block[i] * (i + 1);
    return sum;
}

static void write_block(uint8_t *block, size_t number, const uint8_t *bytes, size_t used)
{
    memset(block, 0, BLOCK_SIZE);
    block[0] = (uint8_t)number;
    block[1] = EDITION;
    block[2] = (uint8_t)used;
    block[3] = (uint8_t)(used >> 8);
    memcpy(block + BLOCK_HEAD, bytes, used);
    for (uint32_t i = 0; i < 4; i++)
        block[BLOCK_CHECK + i] = (uint8_t)(check_of(block) >> 8 * i);
}

static uint32_t block_fault(const uint8_t *block, size_t number, size_t used)
{
    uint32_t stored = 0;
    for (int i = 3; i >= 0; i--)
        stored = stored << 8 | block[BLOCK_CHECK + i];
    if (stored != check_of(block))
        return 63;
    if (block[0] != number || block[1] != EDITION || (block[2] | block[3] << 8) != (int)used)
        return 64;
    for (size_t i = BLOCK_HEAD + used; i < BLOCK_CHECK; i++)
        if (block[i] != 0)
            return 64;
    return 0;
}

uint32_t reference_store(const uint8_t *text, size_t text_len, const uint8_t *carriers, size_t carriers_len, uint8_t *image, size_t image_len,
                         uint32_t answer[8])
{
    uint64_t words[MOST_WORDS];
    Reader r;
    read_text(&r, text, text_len);
    if (r.fault.number == 0)
        load_carriers(&r, words, carriers, carriers_len);
    if (r.fault.number == 0 && image_len != BLOCK_SIZE * block_count(carriers_len))
        r.fault = (Fault){62, 0};
    for (size_t i = 0; r.fault.number == 0 && i < block_count(carriers_len); i++)
        write_block(image + BLOCK_SIZE * i, i, carriers + BLOCK_PAYLOAD * i, used_of(carriers_len, i));
    give(answer, text, r.fault.number == 0 ? DONE : REFUSED, r.fault, 0);
    give_back_memory(r.memory);
    return answer[NUMBER];
}

uint32_t reference_load(const uint8_t *text, size_t text_len, const uint8_t *image, size_t image_len, uint8_t *carriers, size_t carriers_len,
                        uint32_t answer[8])
{
    uint64_t words[MOST_WORDS];
    uint8_t held[MOST_WORDS * 8];
    Reader r;
    read_text(&r, text, text_len);
    if (r.fault.number == 0 && carriers_len != (size_t)r.word_count * 8)
        r.fault = (Fault){60, 0};
    if (r.fault.number == 0 && image_len != BLOCK_SIZE * block_count(carriers_len))
        r.fault = (Fault){62, 0};
    for (size_t i = 0; r.fault.number == 0 && i < block_count(carriers_len); i++) {
        size_t used = used_of(carriers_len, i);
        uint32_t number = block_fault(image + BLOCK_SIZE * i, i, used);
        if (number != 0)
            r.fault = (Fault){number, (uint32_t)(BLOCK_SIZE * i)};
        else
            memcpy(held + BLOCK_PAYLOAD * i, image + BLOCK_SIZE * i + BLOCK_HEAD, used);
    }
    if (r.fault.number == 0)
        load_carriers(&r, words, held, carriers_len);
    if (r.fault.number == 0 && carriers_len > 0)
        memcpy(carriers, held, carriers_len);
    give(answer, text, r.fault.number == 0 ? DONE : REFUSED, r.fault, 0);
    give_back_memory(r.memory);
    return answer[NUMBER];
}
