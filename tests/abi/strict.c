/* include/vinculampe.h under every warning, for an includer that has names of its own and counts in int. Compiled, not run. */
extern int run, room, given, nothing, plan, log_len, number, words, tracks, full, crc_label, fill_bus;

#include "../../include/vinculampe.h"

size_t sizes_of_int(int frame_words, int frame_tracks, int yes, int bytes);

size_t sizes_of_int(int frame_words, int frame_tracks, int yes, int bytes)
{
    vin_plan p = VIN_PLAN_INIT(frame_words, frame_tracks);
    return p.words + p.crc_label + p.fill_bus + VIN_CRC_LABEL + VIN_FILL_BUS + VIN_GROUP_BYTES(frame_words, frame_tracks) + VIN_GROUP_SLOTS(frame_words, frame_tracks, yes, yes)
           + VIN_COMPOSED_WORDS(bytes) + VIN_COMPOSED_GROUPS(bytes, frame_words, frame_tracks, yes, yes)
           + VIN_COMPOSED_BYTES(bytes, frame_words, frame_tracks, yes, yes) + VIN_READ_LOG_BYTES(bytes)
           + VIN_READ_GROUPS(bytes, frame_words, frame_tracks) + VIN_READ_TIMES_BYTES(bytes, frame_words, frame_tracks, yes)
           + VIN_PICKED_BYTES(bytes) + VIN_JOINED_BYTES(bytes, bytes) + VIN_BUS_BIT(frame_tracks) + VIN_ALL_BUSES
           + VIN_REPLAYED_BYTES(bytes) + VIN_READ_WORDS(bytes, frame_words, frame_tracks, yes, yes) + VIN_ITEMS_LOG_BYTES(bytes)
           + VIN_REPORT_ENTRIES(bytes, frame_words, frame_tracks, yes, yes) + VIN_ENTRY_NUMBER(bytes) + VIN_ENTRY_INDEX(bytes)
           + VIN_STREAM_GROUPS(bytes, frame_words, frame_tracks) + (size_t)VIN_STREAM_MAX;
}
