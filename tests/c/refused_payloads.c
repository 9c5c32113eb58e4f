/* Payloads that are refused: for what, which cause comes first, and what stays in the two buffers. */
#include "payload_file.h"

/* ---- channels --------------------------------------------------------------------------------------------------- */

static const struct { uint8_t channel_type, bit_offset; uint32_t bit_count; int has_data; } other_channels[] = {
    { 0, 0, 64, 1 }, { 2, 0, 64, 1 }, { 255, 0, 64, 1 }, { 1, 0, 64, 0 }, { 0, 0, 64, 0 },
    { 1, 1, 64, 1 }, { 1, 7, 64, 1 }, { 1, 8, 64, 1 }, { 1, 64, 64, 1 }, { 1, 255, 64, 1 },
    { 1, 0, 0, 1 }, { 1, 0, 1, 1 }, { 1, 0, 32, 1 }, { 1, 0, 63, 1 }, { 1, 0, 65, 1 }, { 1, 0, 128, 1 },
    { 1, 0, 64 + 256, 1 }, { 1, 0, 64 + 65536, 1 }, { 1, 0, UINT32_MAX, 1 }, { 1, 8, 56, 1 },
};

/* Of a number and of what is none, in a whole file and in none. */
static void check_other_channels(void)
{
    payload_plan plan = whole_plan();
    const question whole = lay_payload_file(&plan);
    size_t i;
    uint8_t type;
    for (i = 0; i < COUNT(other_channels); i++)
        for (type = MF4_TYPE_FLOAT_BE; type <= MF4_TYPE_LATIN1; type++) {
            question asked = whole;
            name_row("channels that hold no position", i);
            asked.channel.data_type = type;
            asked.channel.channel_type = other_channels[i].channel_type;
            asked.channel.bit_offset = other_channels[i].bit_offset;
            asked.channel.bit_count = other_channels[i].bit_count;
            asked.channel.data_addr = other_channels[i].has_data ? asked.channel.data_addr : 0;
            check_refused(&plan, asked, 35, 0, NOTHING);
            CHECK(payload_refused(mf4_record_payload(NULL, 0, 0, 0, 0, asked.group, asked.channel, NULL, 0, NULL, 0), 35, 0));
        }
}

/* ---- the position ----------------------------------------------------------------------------------------------- */

static const struct { uint64_t id_size; uint32_t byte_offset; uint64_t told; } far_positions[] = {
    { 1, 4, 13 }, { 5, 0, 13 }, { 0, 5, 13 }, { 1, 11, 20 }, { 12, 0, 20 }, { 13, 0, 21 }, { 4096, 0, 4104 },
    { 0, UINT32_MAX, UINT64_C(4294967303) }, { UINT32_MAX, UINT32_MAX, UINT64_C(8589934598) },
    { MOST - 9, 0, MOST - 1 }, { MOST - 8, 0, MOST }, { MOST - 7, 0, MOST }, { MOST, 0, MOST }, { MOST, 1, MOST },
    { MOST, 4, MOST },
    { MOST - 4294967304, UINT32_MAX, MOST - 1 }, { MOST - 4294967303, UINT32_MAX, MOST }, { MOST, UINT32_MAX, MOST },
};

/* What is told is told of every type, and from the record's size; its buffer is longer. */
static void check_far_positions(void)
{
    payload_plan plan = whole_plan();
    question asked = lay_payload_file(&plan);
    size_t i;
    uint8_t type;
    for (i = 0; i < COUNT(far_positions); i++)
        for (type = 0; type <= 17; type++) {
            name_row("positions that end outside the record", i);
            asked.channel.data_type = type;
            asked.group.record_id_size = far_positions[i].id_size;
            asked.channel.byte_offset = far_positions[i].byte_offset;
            check_refused(&plan, asked, 21, far_positions[i].told, THE_RECORD);
        }
}

/* The last eight bytes of the record are a position as well as any. */
static void check_last_position(void)
{
    static const expected value = STANDS(MF4_KIND_BYTES, 0, 8);
    payload_plan plan = whole_plan();
    lent record, payload;
    question asked;
    name_case("a position that ends with the record");
    plan.position = 11 << 8;  /* so that 11 stands a byte further */
    asked = lay_payload_file(&plan);
    asked.group.record_id_size = 4, asked.channel.byte_offset = 0;
    record = lend_room(OUTPUT, RECORD_SIZE), payload = lend_room(TWIN_OUTPUT, 8);
    CHECK(payload_is(ask(asked, record, payload), value, 8, 1) && holds_only_hex(payload, "34 12 00 00 00 00 00 80"));
    CHECK(holds_only_hex(record, "82 71 72 00 0B 00 00 00 00 00 00 00"));
}

/* ---- the chain of payloads -------------------------------------------------------------------------------------- */

/* Places in the first of its lists, which has two blocks, and in the second, which has one. */
#define FIRST_OFFSET 56, 8
#define SECOND_OFFSET 64, 8
#define FIRST_BLOCK_ID 72, 4
#define FIRST_BLOCK_LENGTH 80, 8
#define FIRST_BLOCK_LINKS 88, 8
#define SECOND_BLOCK_LENGTH 108, 8
#define FLAGS_OF_ONE 40, 1
#define OFFSET_OF_ONE 48, 8

static const laid_chain two_lists = { FREE("45"), FREE("5") };

/* Where the first block of the records stands. */
enum { RECORD_BLOCK = START + 56 };

static const struct { size_t list, at; int size; uint64_t number; uint32_t reply; uint64_t told; } damages[] = {
    { 0, LINK_COUNT, MOST, 2, MOST }, { 1, LINK_COUNT, 1000, 2, 8032 }, { 0, ID, 0, 3, 0 }, { 0, ID, MF4_ID_SD, 3, 0 },
    { 1, ID, MF4_ID_DT, 3, 0 }, { 0, LINK_COUNT, 0, 4, 0 }, { 1, LINK_COUNT, 0, 4, 0 },
    { 0, COUNT_OF_TWO, 1, 10, 0 }, { 0, BLOCK_LENGTH, 71, 10, 0 }, { 1, BLOCK_LENGTH, 55, 10, 0 },
    { 0, NEXT, MOST, 11, 0 }, { 1, NEXT, MOST - 22, 11, 0 }, { 0, FIRST_LINK, 0, 11, 0 }, { 0, SECOND_LINK, MOST, 11, 0 },
    { 0, FIRST_BLOCK_ID, MF4_ID_DT, 12, 0 }, { 0, FIRST_BLOCK_ID, 0x64732323, 12, 0 }, { 0, FIRST_BLOCK_LINKS, 1, 12, 0 },
    { 0, FIRST_BLOCK_LENGTH, 23, 12, 0 }, { 0, FIRST_BLOCK_LENGTH, MOST, 12, 0 }, { 0, FIRST_LINK, RECORD_BLOCK, 12, 0 },
    { 1, NEXT, START, 12, 0 },
    { 0, FIRST_OFFSET, 1, 13, 0 }, { 0, SECOND_OFFSET, 5, 13, 0 }, { 1, OFFSET_OF_ONE, 8, 13, 0 },
    { 1, FLAGS_OF_ONE, 1, 13, 0 }, { 0, FIRST_BLOCK_LENGTH, 27, 13, 0 }, { 0, SECOND_BLOCK_LENGTH, 28, 13, 0 },
    { 1, NEXT, 0, 0, 0 },
};

/* The last row is no damage: the file is whole. */
static void check_damages_of_payloads(void)
{
    payload_plan plan = whole_plan();
    size_t i;
    plan.payload_cut = two_lists;
    for (i = 0; i < COUNT(damages); i++) {
        question asked = lay_payload_file(&plan);
        name_row("damages of the chain of payloads", i);
        put(payload_chain().places[damages[i].list] + damages[i].at, damages[i].number, damages[i].size);
        check_outcome(&plan, asked, damages[i].reply, damages[i].told, THE_RECORD);
    }
}

/* Lists that do not keep to what the first one declares, and short and long blocks. */
static void check_broken_payloads(void)
{
    static const laid_chain chains[] = {
        { THREE("33"), FREE("33") }, { FREE("33"), THREE("33") }, { THREE("3"), FREE("3") }, { THREE("33"), { 1, 4, "44" } },
        { THREE("33"), THREE("333") }, { THREE("33"), THREE("3"), THREE("") }, { THREE("32"), THREE("3") }, { THREE("323") },
        { THREE("334") },
    };
    payload_plan plan = whole_plan();
    size_t i;
    for (i = 0; i < COUNT(chains); i++) {
        name_row("chains of payloads that break the rule", i);
        plan.payload_cut = chains[i];
        check_refused(&plan, lay_payload_file(&plan), 13, 0, THE_RECORD);
    }
}

/* A first list that names itself is read until a limit is passed. */
static void check_loops_of_payloads(void)
{
    static const struct { laid_chain lists; uint32_t reply; } loops[] = {
        { { FREE("") }, 8 }, { { THREE("") }, 8 }, { { THREE("32") }, 13 },
        { { { 1, 0, "0000000000000000" } }, 8 }, { { { 1, 0, "00000000000000000" } }, 9 },
    };
    payload_plan plan = whole_plan();
    size_t i;
    for (i = 0; i < COUNT(loops); i++) {
        question asked;
        name_row("loops of the chain of payloads", i);
        plan.payload_cut = loops[i].lists;
        asked = lay_payload_file(&plan);
        put((size_t)asked.channel.data_addr + 24, asked.channel.data_addr, 8);
        check_refused(&plan, asked, loops[i].reply, 0, THE_RECORD);
    }
}

/* How many bytes the file has from a list of the chain of payloads on. The chain of records stands in front. */
static const struct { size_t list, length; uint32_t reply; uint64_t told; } short_files[] = {
    { 1, 56 + 28, 12, 0 }, { 1, 56 + 24, 12, 0 }, { 1, 56 + 23, 11, 0 }, { 1, 56, 11, 0 },
    { 1, 55, 2, 56 }, { 1, 48, 2, 56 }, { 1, 47, 2, 48 }, { 1, 24, 2, 48 }, { 1, 23, 11, 0 },
    { 0, 72 + 27, 12, 0 }, { 0, 71, 2, 72 }, { 0, 23, 11, 0 }, { 0, 0, 11, 0 },
};

static void check_short_files(void)
{
    payload_plan plan = whole_plan();
    size_t i;
    plan.payload_cut = two_lists;
    for (i = 0; i < COUNT(short_files); i++) {
        question asked = lay_payload_file(&plan);
        name_row("files that end in the chain of payloads", i);
        asked.file_length = payload_chain().places[short_files[i].list] + short_files[i].length;
        cut_file(asked.file_length);
        check_refused(&plan, asked, short_files[i].reply, short_files[i].told, THE_RECORD);
    }
}

/* ---- links and kinds -------------------------------------------------------------------------------------------- */

/* A single block is no chain, and a chain of the one kind is none of the other. Offsets count from the first list on. */
static void check_links(void)
{
    payload_plan plan = whole_plan();
    const question whole = lay_payload_file(&plan);
    const laid chain = payload_chain();
    const struct { uint64_t address; uint32_t as_data, as_start; } links[] = {
        { chain.places[0] + FIRST_PAYLOAD_BLOCK, 3, 3 }, { RECORD_BLOCK, 3, 3 }, { chain.places[0] + 1, 3, 3 }, { 1, 3, 3 },
        { chain.end - 24, 3, 3 }, { chain.end - 23, 11, 11 }, { chain.end, 11, 11 }, { MOST, 11, 11 }, { MOST - 22, 11, 11 },
        { START, 12, 0 }, { chain.places[0], 0, 12 }, { chain.places[1], 13, 12 }, { 0, 35, 11 },
    };
    size_t i;
    for (i = 0; i < COUNT(links); i++) {
        question as_data = whole, as_start = whole;
        name_row("data links and starts", i);
        as_data.channel.data_addr = links[i].address;
        check_outcome(&plan, as_data, links[i].as_data, 0, links[i].as_data == 35 ? NOTHING : THE_RECORD);
        as_start.start = links[i].address;
        check_outcome(&plan, as_start, links[i].as_start, 0, NOTHING);
    }
}

static void check_kinds(void)
{
    static const struct { const char *record_id, *payload_id; uint32_t reply; enum left left; } kinds[] = {
        { "##DT", "##SD", 0, NOTHING }, { "##DT", "##DT", 12, THE_RECORD }, { "##SD", "##SD", 12, NOTHING },
        { "##SD", "##DT", 12, NOTHING }, { "##DT", "##DZ", 12, THE_RECORD }, { "##DT", "##sd", 12, THE_RECORD },
    };
    size_t i;
    for (i = 0; i < COUNT(kinds); i++) {
        payload_plan plan = whole_plan();
        name_row("kinds of the two chains", i);
        plan.record_id = kinds[i].record_id, plan.payload_id = kinds[i].payload_id;
        check_outcome(&plan, lay_payload_file(&plan), kinds[i].reply, 0, kinds[i].left);
    }
}

/* ---- the order -------------------------------------------------------------------------------------------------- */

/* One fault for each refusal, in the order in which they are told. */
enum fault {
    OTHER_CHANNEL, SHORT_RECORD_BUFFER, LONG_FILE, DAMAGED_RECORDS, NO_RECORD, FAR_POSITION, DAMAGED_PAYLOADS, FAR_PAYLOAD,
    SHORT_PAYLOAD_BUFFER, SHORT_NUMBER, FAULTS
};

/* Behind them the answer, where there is none. */
static const struct { uint32_t reply; uint64_t told; enum left left; } fault_replies[FAULTS + 1] = {
    { 35, 0, NOTHING }, { 15, 0, NOTHING }, { 7, 0, NOTHING }, { 3, 0, NOTHING }, { 16, 0, NOTHING },
    { 21, 13, THE_RECORD }, { 12, 0, THE_RECORD }, { 23, 0, THE_RECORD }, { 6, 3, THE_RECORD },
    { 21, 8, RECORD_AND_PAYLOAD }, { MF4_ANSWER, 0, NOTHING },
};

static void add_fault(question *asked, enum fault fault)
{
    switch (fault) {
    case OTHER_CHANNEL: asked->channel.bit_count = 63; break;
    case SHORT_RECORD_BUFFER: asked->record_room = RECORD_SIZE - 1; break;
    case LONG_FILE: asked->file_length = (size_t)MF4_MAX_FILE_SIZE + 1; break;
    case DAMAGED_RECORDS: put(START, 0, 4); break;
    case NO_RECORD: asked->number = RECORDS; break;
    case FAR_POSITION: asked->channel.byte_offset = 4; break;
    case DAMAGED_PAYLOADS: put(payload_chain().places[0] + FIRST_PAYLOAD_BLOCK, MF4_ID_DT, 4); break;
    case SHORT_PAYLOAD_BUFFER: asked->payload_room = 2; break;
    case SHORT_NUMBER: asked->channel.data_type = MF4_TYPE_FLOAT_LE; break;
    default: break;  /* FAR_PAYLOAD is one of the plan */
    }
}

static enum fault first_of_faults(unsigned faults)
{
    unsigned fault = 0;
    while (fault < FAULTS && (faults >> fault & 1) == 0)
        fault++;
    return (enum fault)fault;
}

/* Every set of faults: the first is told. */
static void check_fault_order(void)
{
    unsigned faults, fault;
    for (faults = 0; faults < 1u << FAULTS; faults++) {
        const enum fault first = first_of_faults(faults);
        payload_plan plan = whole_plan();
        question asked;
        name_number("the set of faults", faults);
        plan.position = (faults >> FAR_PAYLOAD & 1) == 1 ? STREAM_SIZE - 3 : 0;
        asked = lay_payload_file(&plan);
        for (fault = 0; fault < FAULTS; fault++)
            if ((faults >> fault & 1) == 1)
                add_fault(&asked, (enum fault)fault);
        check_outcome(&plan, asked, fault_replies[first].reply, fault_replies[first].told, fault_replies[first].left);
    }
}

void check_refused_payloads(void)
{
    check_other_channels();
    check_far_positions();
    check_last_position();
    check_damages_of_payloads();
    check_broken_payloads();
    check_loops_of_payloads();
    check_short_files();
    check_links();
    check_kinds();
    check_fault_order();
}
