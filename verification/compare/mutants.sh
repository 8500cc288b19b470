# Shows that the comparison finds mistakes: the model stands in for the product with one mistake at a time, and each must be told
# from the model as it is. Ends non-zero where one is not found. Run in the repository's root: sh verification/compare/mutants.sh [SEEDS]
set -u
. verification/compare/build.sh
find_compiler || exit 2
seeds=${1:-2000}
work=$(mktemp -d) || exit 2
trap 'rm -rf "$work"' EXIT
compile="$cc -w $comparison_headers"

# From here on mistakes are made in this part's loader.
use_part() { # PART
    words=$(part_words "$1") before=bhorelmu_ objects=$work/$1
    [ "$1" = mspm0 ] || before=bhorelmu_$1_
    names=
    for name in start call settings_read settings_write settings_to_form_2 settings_to_form_1 settings_mend rate; do
        names="$names -Dmodel_${before#bhorelmu_}$name=$before$name"
    done
    mkdir -p "$objects" "$work/mutant"
    for source in $comparison_sources; do
        $compile $words -c "$source" -o "$objects/$(basename "$source" .c).o" || exit 2
    done
}

# The model with a mistake, below $work/mutant; fails where there is none to be seen.
make_mutant() { # EDIT
    made=1
    for file in model.c model.h form.h mspm0.h am13e230x.h; do
        sed "$1" "verification/model/$file" >"$work/mutant/$file"
        cmp -s "verification/model/$file" "$work/mutant/$file" || made=0
    done
    return "$made"
}

# Reads mistakes, each its name and how sed puts it into the model, and looks whether the comparison finds them. The words go to the comparison.
missed=0
tried=0
try_mistakes() { # WORDS..
    while IFS='@' read -r mistake edit; do
        tried=$((tried + 1))
        make_mutant "$edit" || {
            echo "NOT MADE   $mistake"
            missed=$((missed + 1))
            continue
        }
        rm -f "$work/compare"
        $compile $words $names -c "$work/mutant/model.c" -o "$work/mutant/out" &&
            $cc "$objects"/*.o "$work/mutant/out" -o "$work/compare" || exit 2
        $run "$work/compare" "$seeds" "$@" >"$work/report" 2>/dev/null
        if [ $? -ne 1 ]; then
            echo "NOT FOUND  $mistake"
            missed=$((missed + 1))
            continue
        fi
        steps=$(sed -n 's/ of [0-9]* steps.*//p' "$work/report")
        echo "found      $mistake ($(sed -n 's/^difference: //p' "$work/report" | head -n 1)${steps:+, $steps steps})"
    done
}

use_part mspm0

# That Program stores and makes no AND is none: it programs what is 0xFF (T-02).
try_mistakes <<'MISTAKES'
checksum inverted at the end@s/return sum;/return ~sum;/
L checked before the lock@s/is_protected(command) && !loader->unlocked)/is_protected(command) \&\& !loader->unlocked \&\& length_right(command, length))/
range checked before the lock@s/    enum message refusal = standing.*/&\n    if (core[0] == PROGRAM \&\& length > 5 \&\& locate(loader, get32(core + 1), length - 5) == NULL) return send_message(reply, RANGE_INVALID);/
password compared with the flash@s/memcmp(core + 1, loader->fields + PASSWORD,/memcmp(core + 1, loader->settings + form_1.bodies_at,/
message sent after 0x24@s/^        program(loader, core, length);/        return send_outcome(reply, program(loader, core, length));/
message sent after a 0x24 that is not blank@s/^        program(loader, core, length);/        if (program(loader, core, length) == FLASH_ERROR) return send_outcome(reply, FLASH_ERROR);/
address and size added in 32 bits@/^static uint8_t \*locate/,/^}/s/    if (first < loader->main_size)$/    if (first >= loader->main_size \&\& (uint32_t)(first + count) <= loader->main_size) return loader->main_flash;\n&/
settings one byte longer@s/count <= SETTINGS_SIZE - offset/count <= SETTINGS_SIZE + 1 - offset/
alignment before range@/^static enum message program/,/^}/s/    if (place == NULL)/    if (place == NULL \&\& (in_window(first) || (first % 8 == 0 \&\& count % 8 == 0)))/
alignment to 4@s/PROGRAM_UNIT = 8/PROGRAM_UNIT = 4/
data size need not be aligned@s/first % PROGRAM_UNIT != 0 || count % PROGRAM_UNIT != 0/first % PROGRAM_UNIT != 0/
words not looked at@s/if (!all_ones(place, count))/if (0)/
only the first word looked at@s/!all_ones(place, count)/!all_ones(place, PROGRAM_UNIT)/
only the last word looked at@s/!all_ones(place, count)/!all_ones(place + count - PROGRAM_UNIT, PROGRAM_UNIT)/
only the first byte of each word looked at@s/if (!all_ones(place, count))/bool blank = true;\n    for (uint32_t i = 0; i < count; i += PROGRAM_UNIT) blank = blank \&\& place[i] == 0xFF;\n    if (!blank)/
data of 0xFF written over any word@s/!all_ones(place, count)/!all_ones(place, count) \&\& !all_ones(core + 5, count)/
a word refused only where a bit would be set@s/if (!all_ones(place, count))/bool sets = false;\n    for (uint32_t i = 0; i < count; i++) sets = sets || (core[5 + i] \& ~place[i]) != 0;\n    if (sets)/
the same data written again taken@s/!all_ones(place, count)/!all_ones(place, count) \&\& memcmp(place, core + 5, count) != 0/
words before the bad one written@s/^    if (!all_ones(place, count))/    for (uint32_t i = 0; i < count \&\& all_ones(place + i, PROGRAM_UNIT); i += PROGRAM_UNIT) if (!all_ones(place, count)) memcpy(place + i, core + 5 + i, PROGRAM_UNIT);\n&/
words of the settings not looked at@s/!all_ones(place, count)/first < loader->main_size \&\& !all_ones(place, count)/
words not looked at by 0x24@s/!all_ones(place, count)/core[0] == PROGRAM \&\& !all_ones(place, count)/
the word after the range looked at too@s/!all_ones(place, count)/!all_ones(place, first + count + PROGRAM_UNIT <= loader->main_size ? count + PROGRAM_UNIT : count)/
not blank before 0A@s/^    if (first % PROGRAM_UNIT != 0 ||/    if (!all_ones(place, count)) return FLASH_ERROR;\n&/
not blank before protected@/^static enum message program/,/^}/s/^    if (range_protected(loader, first,/    if (!all_ones(place, count)) return FLASH_ERROR;\n&/
not blank told as 05@/if (!all_ones(place, count))/{n;s/FLASH_ERROR/RANGE_INVALID/}
not blank told as a message F0@s/    if (outcome != FLASH_ERROR)/    if (1)/
Detailed Error without its details@s/    return 4;/    return 2;/
Detailed Error with one detail@s/    return 4;/    return 3;/
details other than 0@s/put16(reply + 2, 0); /put16(reply + 2, 1); /
not blank locks@/if (!all_ones(place, count))/{n;s/return FLASH_ERROR/return loader->unlocked = false, FLASH_ERROR/}
program ignores protected sectors@s/if (range_protected(loader, first,/if (first >= loader->main_size \&\& range_protected(loader, first,/
program ignores protected settings@s/if (range_protected(loader, first,/if (first < loader->main_size \&\& range_protected(loader, first,/
settings' bit taken for set@s/return loader->fields\[SETTINGS_PROTECTED\];/return true;/
only the first sector looked at@s/sector <= last \/ SECTOR_SIZE/sector <= first \/ SECTOR_SIZE/
only the last sector looked at@s/uint32_t sector = first \/ SECTOR_SIZE/uint32_t sector = last \/ SECTOR_SIZE/
the sector after the range looked at too@s/sector <= last \/ SECTOR_SIZE/sector <= (last + 1) \/ SECTOR_SIZE/
protected Program answers 00 and writes nothing@/if (range_protected(loader, first,/{n;s/RANGE_INVALID/DONE/}
protected Program writes the open sectors@s/^    if (range_protected(loader, first,/    for (uint32_t i = 0; i < count \&\& first < loader->main_size \&\& core[0] == PROGRAM; i++) if (!sector_protected(loader, (first + i) \/ SECTOR_SIZE)) place[i] \&= core[5 + i];\n&/
protected 0x24 writes the open sectors@s/^    if (range_protected(loader, first,/    for (uint32_t i = 0; i < count \&\& first < loader->main_size \&\& core[0] == PROGRAM_FAST; i++) if (!sector_protected(loader, (first + i) \/ SECTOR_SIZE)) place[i] \&= core[5 + i];\n&/
0x24 ignores protection@s/if (range_protected(loader, first,/if (core[0] != PROGRAM_FAST \&\& range_protected(loader, first,/
protected before 0A@s/^    if (first % PROGRAM_UNIT != 0 ||/    if (range_protected(loader, first, first + count - 1)) return RANGE_INVALID;\n&/
range erase skips protected sectors and answers 00@s/if (range_protected(loader, start, end))/if (0)/
range erase of protected sectors answers 00 and erases nothing@/if (range_protected(loader, start, end))/{n;s/RANGE_INVALID/DONE/}
range erase erases the open sectors and answers 05@s/^    if (range_protected(loader, start, end))/    if (range_protected(loader, start, end)) erase_sectors(loader, start \/ SECTOR_SIZE, end \/ SECTOR_SIZE);\n&/
Mass erase refused for a protected sector@s/^    case MASS_ERASE:$/&\n        if (range_protected(loader, 0, loader->main_size - 1)) return send_message(reply, RANGE_INVALID);/
Factory reset refused for a protected sector@/^static enum message factory_reset/,/^}/s/^    erase_everything(loader);/    if (range_protected(loader, 0, loader->main_size - 1)) return RANGE_INVALID;\n&/
alert erases nothing where a sector is protected@s/^        erase_everything(loader);/        if (!range_protected(loader, 0, loader->main_size - 1)) erase_everything(loader);/
Read back refuses a protected sector@/^static size_t read_back/,/^}/s/ || place == NULL)/ || place == NULL || range_protected(loader, get32(core + 1), get32(core + 1) + count - 1))/
Verify refuses a protected sector@/^static size_t verify/,/^}/s/(place == NULL ||/(place == NULL || range_protected(loader, get32(core + 1), get32(core + 1) + count - 1) ||/
erase ignores protected sectors@s/        if (!sector_protected(loader, sector))/        if (1)/
erase ignores protected settings@s/^    if (!loader->fields\[SETTINGS_PROTECTED\])/    if (1)/
protection bits from the other end@s/>> sector % 8 & 1/>> (7 - sector % 8) \& 1/
range erase leaves the last sector@s/sector <= last; sector/sector < last + (first == last); sector/
range erase end exclusive@s/end >= loader->main_size/end > loader->main_size/
range erase of start above end@s/start > end || end >= loader->main_size/start >= loader->main_size || end >= loader->main_size/
sleep not over at its end@s/if (loader->sleep > wait)/if (loader->sleep >= wait \&\& loader->sleep > 0)/
whole wait counts as idle after sleep@s/(wait - loader->sleep)/wait/
idle limit off by one@s/if (idle < IDLE_LIMIT)/if (idle <= IDLE_LIMIT - 2)/
idle added in 32 bits@s/uint64_t idle = (uint64_t)loader->idle + (wait - loader->sleep)/uint32_t idle = loader->idle + (wait - loader->sleep)/
idle keeps what is over 10,000@/^static bool pass_time/,/^}/s/^    loader->idle = 0;$/    loader->idle = (idle - 10000) % 10000;/
packet dropped when idle locks@/^static bool pass_time/,/^}/s/^    loader->unlocked = false;$/    if (loader->phase == COMMAND) { loader->unlocked = false; return false; }/
Connect served as detect ends@/^static size_t serve(/,/^}/s/    if (loader->phase == DETECT)$/    if (loader->phase == DETECT || loader->phase == STANDBY)/
Connect with bytes after it taken in detect@s/size != sizeof connect || memcmp(packet, connect, size)/size < sizeof connect || memcmp(packet, connect, sizeof connect)/
idle cleared by an unknown code@s/if (refusal != UNKNOWN_COMMAND)/if (1)/
idle kept by a refused command@s/if (refusal != UNKNOWN_COMMAND)/if (refusal == DONE)/
wrong password keeps the rate@s/    loader->rate_id = RATE_AT_START;//
wrong password keeps it unlocked@/^static enum message wrong_password/,/^}/s/    loader->unlocked = false;//
right password keeps the count@s/    loader->wrong_count = 0;//
wrong count without end@s/^        loader->wrong_count++;/&\n    else loader->wrong_count++;/
right password clears the total@s/    loader->wrong_count = 0;/&\n    loader->tries = 0;/
total wraps to 0@s/^        loader->tries++;/&\n    else loader->tries = 0;/
total goes past 65,535@s/if (loader->tries < TRIES_LARGEST)/if (1)/
total stops at 65,534@s/if (loader->tries < TRIES_LARGEST)/if (loader->tries < TRIES_LARGEST - 1)/
third and later ones not in the total@s/if (loader->tries < TRIES_LARGEST)/if (loader->wrong_count < 2 \&\& loader->tries < TRIES_LARGEST)/
fourth and later ones not in the total@s/if (loader->tries < TRIES_LARGEST)/if (loader->wrong_count < 3 \&\& loader->tries < TRIES_LARGEST)/
wrong one of an unlocked session not in the total@/^static enum message wrong_password/,/^}/{s/^    loader->unlocked = false;/    bool was = loader->unlocked;\n&/;s/if (loader->tries < TRIES_LARGEST)/if (!was \&\& loader->tries < TRIES_LARGEST)/}
total is the wrong count@s/^        loader->tries++;/        loader->tries = loader->wrong_count + 1u;/
alert's disable clears the total@s/^        loader->burn = true;/&\n        loader->tries = 0;/
idle clears the total@/^static bool pass_time/,/^}/s/^    loader->unlocked = false;$/&\n    loader->tries = loader->wrong_count;/
Start clears the total@/case START:/,/return 0/s/        loader->unlocked = false;/&\n        loader->tries = loader->wrong_count;/
total not stored@s/^    put32(record + AT_TRIES, loader->tries);//
total stored in one byte@s/put32(record + AT_TRIES, loader->tries)/record[AT_TRIES] = (uint8_t)loader->tries/
start keeps the old total@s/memset(record, 0, AT_FIELDS)/memset(record, 0, AT_TRIES)/
alert only at the third@s/    if (loader->fields\[ALERT\] == ALERT_RESET)/    if (loader->fields[ALERT] == ALERT_RESET \&\& before < 3)/;s/    loader->sleep = SLEEP_LARGEST;/    unsigned before = loader->wrong_count;\n&/
alert reset obeys the reset mode@s/    if (loader->fields\[ALERT\] == ALERT_RESET)/    if (loader->fields[ALERT] == ALERT_RESET \&\& loader->fields[RESET_MODE] != RESET_OFF)/
disable stays asleep@s/^        loader->sleep = 0;$//
disable burns nothing@s/loader->burn = true/loader->burn = false/
alert of nothing burns too@s/    return ALERTED;/    loader->burn = true;\n&/
Unlock of wrong L counts@s/^    if (refusal == DONE)/    if (refusal == COMMAND_INVALID \&\& core[0] == UNLOCK) wrong_password(loader);\n&/
Start of wrong L ends@s/^    if (refusal == DONE)/    if (core[0] == START) loader->phase = ENDED, loader->unlocked = false;\n&/
Start keeps the lock open@/case START:/,/return 0/s/        loader->unlocked = false;//
Connect locks@s/default: \/\* Connect \*\//&\n        loader->unlocked = false;/
rate id 9 refused@s/id <= 9) || id == LAST_RATE/id < 9)/
rate id 0x10 taken@s/id == LAST_RATE;/id == 0x10;/
record of the other part taken@s/record_size != RECORD_SIZE/record_size != RECORD_SIZE \&\& record_size != 118/
start takes a record of the other part@/^static uint64_t start(/,/^}/s/record_size != RECORD_SIZE/record_size != RECORD_SIZE \&\& record_size != 118/
reader takes fields of the other part@/^static uint64_t settings_read/,/^}/s/fields_size != FIELDS_SIZE/fields_size != FIELDS_SIZE \&\& fields_size != 164/
writer takes fields of the other part@/^static uint64_t settings_write/,/^}/s/fields_size != FIELDS_SIZE/fields_size != FIELDS_SIZE \&\& fields_size != 164/
version of 8 bytes@/^enum { PROGRAM_UNIT = 8/s/VERSION_SIZE = 4/VERSION_SIZE = 8/
protection of 32 bytes in the table@s/{6, 126, 8, 0}/{6, 126, 32, 0}/
L 1,722 taken@s/length > CORE_LARGEST/length > CORE_LARGEST + 1/
checksum before the size@s/    if (size != length + FRAME_SIZE)/    if (size > length + FRAME_SIZE \&\& checksum(packet + 3, length) != get32(packet + 3 + length)) return CHECKSUM_INCORRECT;\n&/
header after the size@s/    if (packet\[0\] != COMMAND_HEADER)/    if (size >= 3 \&\& packet[0] != COMMAND_HEADER)/
empty packet answered@s/^    if (size == 0)$/    if (size == 0 \&\& loader->phase == COMMAND) { reply[0] = UNKNOWN_ERROR; return 1; }\n&/
readout bytes swapped@s/READOUT_ON = 0xAABB/READOUT_ON = 0xBBAA/
range before readout@s/    if (get16(loader->fields + READOUT) != READOUT_ON)/    if (get16(loader->fields + READOUT) != READOUT_ON \&\& place != NULL)/
Read back of 0 bytes@s/count == 0 || count > READ_BACK_LARGEST/count > READ_BACK_LARGEST/
Read back of 1,720 refused@s/count > READ_BACK_LARGEST/count >= READ_BACK_LARGEST/
Verify of 1,024 refused@s/count < VERIFY_LEAST/count <= VERIFY_LEAST/
range before Verify's size@s/    if (count < VERIFY_LEAST)/    if (count < VERIFY_LEAST \&\& place != NULL)/
Factory reset in mode 1 wants the password@s/fields\[RESET_MODE\] == RESET_WITH_PASSWORD &&/(fields[RESET_MODE] == RESET_WITH_PASSWORD || length == 17) \&\&/
Factory reset takes no password in mode 2@s/(length == 1 || memcmp(\(.*\)) != 0))/(length != 1 \&\& memcmp(\1) != 0))/
version at any pointer@s/pointer % VERSION_SIZE == 0 \&\& //
version not at size - 4@s/pointer <= loader->main_size - VERSION_SIZE/pointer < loader->main_size - VERSION_SIZE/
version pointer added in 32 bits@s/    bool in_main = /    if (pointer == 0xFFFFFFFCu) pointer = 0;\n&/
byte past the reply written@s/        return 1;$/        return (reply[1] = 0, 1);/
blank image refused@s/    if (all_ones(image, SETTINGS_SIZE))$/    if (0)/
form not looked at@s/get16(image) == (\*taken)->number && //
count not looked at@s/ && get16(image + 2) == (\*taken)->entry_count//
form 1 with 7 entries taken@s/get16(image + 2) == (\*taken)->entry_count/(&|| get16(image + 2) == 7)/
form 2 with 6 entries taken@s/get16(image + 2) == (\*taken)->entry_count/(&|| get16(image + 2) == 6)/
form 2 not taken@s/{&form_1, &form_2, NULL};/{\&form_1, NULL};/
form 1 not taken@s/{&form_1, &form_2, NULL};/{\&form_2, NULL};/
seventh entry not looked at@/^static unsigned differing_entry/,/^}/s/entry < form->entry_count/entry < 6/
form 2 read at form 1's places@/^static void read_fields/,/^}/s/form != NULL ? image + form->bodies_at/form != NULL ? image + form_1.bodies_at/
form 2 started at form 1's places@s/form != NULL ? settings + form->bodies_at/form != NULL ? settings + form_1.bodies_at/
filler of form 2 from 126@/^static const struct form form_2/,/^$/s/198,/126,/
filler of form 2 looked at from 199@s/all_ones(image + (\*form)->filler_at, CHECKSUM_AT - (\*form)->filler_at)/all_ones(image + (*form)->filler_at + (*form == \&form_2), CHECKSUM_AT - (*form)->filler_at - (*form == \&form_2))/
filler of form 1 looked at from 198@s/all_ones(image + (\*form)->filler_at, CHECKSUM_AT - (\*form)->filler_at)/all_ones(image + 198, CHECKSUM_AT - 198)/
blank counts as form 2@s/BLANK_FORM = 1/BLANK_FORM = 2/
blank's name is zeros@s/memset(fields + NAME, 0xFF, NAME_SIZE)/memset(fields + NAME, form == NULL ? 0 : 0xFF, NAME_SIZE)/
name of form 1 is zeros@s/memset(fields + NAME, 0xFF, NAME_SIZE)/memset(fields + NAME, form == \&form_1 ? 0 : 0xFF, NAME_SIZE)/
name not read@s/^    if (form == &form_2)$/    if (0)/
always form 1 written@s/write_image(form, fields, image)/write_image(\&form_1, fields, image)/
name not written@s/form->filler_at - form->bodies_at); \/\*/KEPT_SIZE); \/*/
entry's zero not looked at@s/i < ENTRY_FIELDS; i++, field += 2)$/i < ENTRY_FIELDS; i++, field += 2) if (i != 3)/;/^static void write_image/,/^}/s/ if (i != 3)//
entries counted from 0@s/return entry + 1;/return entry;/
last filler byte not looked at@s/CHECKSUM_AT - (\*form)->filler_at)/CHECKSUM_AT - (*form)->filler_at - 1)/
body 3's zero byte not looked at@s/ && fields\[ZERO\] == 0//
alert 3 allowed@s/fields\[ALERT\] <= ALERT_DISABLE/fields[ALERT] <= ALERT_DISABLE + 1/
writer leaves old filler@s/    memset(image + form->filler_at.*//
writer refuses 8 before 10@s/^    if (fields_size != FIELDS_SIZE)$/    if (fields_size >= KEPT_SIZE \&\& image_size == SETTINGS_SIZE \&\& !body_3_allowed(fields)) return refused(8);\n&/
writer refuses 8 before 5@s/^    if (form == NULL)$/    if (!body_3_allowed(fields)) return refused(8);\n&/
writer refuses 41 before 8@/^static uint64_t settings_write/,/^}/s/^    if (!body_3_allowed(fields))$/    if (form != \&form_2 \&\& !all_ones(fields + NAME, NAME_SIZE)) return refused(41);\n&/
writer takes form 0@s/form_numbered(get16(fields + FORM))/form_numbered(get16(fields + FORM) == 0 ? 1 : get16(fields + FORM))/
form in the fields cut to a byte@s/form_numbered(get16(fields + FORM))/form_numbered(fields[FORM])/
writer drops a name in form 1@s/^    if (form != &form_2 && !all_ones(fields + NAME, NAME_SIZE))$/    if (0)/
last byte of a name not looked at@s/all_ones(fields + NAME, NAME_SIZE)/all_ones(fields + NAME, NAME_SIZE - 1)/
name refused in form 2@s/if (form != &form_2 && !all_ones/if (!all_ones/
move drops a name@/^uint64_t model_settings_to_form_1/,/^}/s/^    if (!all_ones(fields + NAME, NAME_SIZE))$/    if (0)/
move forth with a name of zeros@/^uint64_t model_settings_to_form_2/,/^}/s/^    write_image/    memset(fields + NAME, 0, NAME_SIZE);\n&/
move rewrites a blank image@/^uint64_t model_settings_to_form_2/,/^}/s/answer != 0 || form == NULL/answer != 0/
move back rewrites a blank image@/^uint64_t model_settings_to_form_1/,/^}/s/answer != 0 || form == NULL/answer != 0/
refused move leaves a new table@/^uint64_t model_settings_to_form_1/,/^}/s/^        return refused(41);/        return (put16(image, 1), put16(image + 2, 6), refused(41));/
move forth takes form 2@/^uint64_t model_settings_to_form_2/,/^}/s/{&form_1, NULL}/{\&form_1, \&form_2, NULL}/
move back takes form 1@/^uint64_t model_settings_to_form_1/,/^}/s/{&form_2, NULL}/{\&form_2, \&form_1, NULL}/
move keeps the old checksum@s/    put32(image + CHECKSUM_AT, checksum(image, CHECKSUM_AT));/    if (get16(image) == 2) &/
mending: 5 before 3@/^uint64_t model_settings_mend/,/^}/s/^    if (image_size != SETTINGS_SIZE)$/    if (!accepted \&\& image_size >= 4 \&\& get16(image) == 2 \&\& get16(image + 2) == 7) return refused(5);\n&/
mending: 10 before 5@/^uint64_t model_settings_mend/,/^}/s/^    if (!accepted && get16/    if (counts_size != COUNTS_SIZE) return refused(10);\n&/
mending: 10 before 3@/^uint64_t model_settings_mend/,/^}/s/^    if (image_size != SETTINGS_SIZE)$/    if (counts_size != COUNTS_SIZE) return refused(10);\n&/
mending: a damaged form 2 mended as form 1@/^uint64_t model_settings_mend/,/^}/s/if (!accepted && get16.*/if (0)/
mending: form 2 refused by its number alone@/^uint64_t model_settings_mend/,/^}/s/ && get16(image + 2) == form_2.entry_count//
mending: a whole form 2 refused@/^uint64_t model_settings_mend/,/^}/s/if (!accepted && get16(image)/if (!(accepted \&\& form != \&form_2) \&\& get16(image)/
mending: blank rewritten@/^uint64_t model_settings_mend/,/^}/s/^    if (!accepted) {/    if (!accepted || form == NULL) {/
mending: form 2 rewritten as form 1@/^uint64_t model_settings_mend/,/^}/s/^    if (!accepted) {/    if (!accepted || form == \&form_2) {/
mending: mended where the counts have no room@/^uint64_t model_settings_mend/,/^}/s/^    if (counts_size != COUNTS_SIZE)$/    if (counts_size != COUNTS_SIZE \&\& !accepted) { read_fields(\&form_1, image, fields); mend_body_3(fields); write_image(\&form_1, fields, image); }\n&/
mending: readout set to its blank value@/^static void mend_body_3/,/^}/s/^    fields\[ZERO\] = 0;/&\n    put16(fields + READOUT, 0xFFFF);/
mending: zero byte left@/^static void mend_body_3/,/^}/s/^    fields\[ZERO\] = 0;//
mending: zero byte not counted@s/BODY_3_SIZE = 6/BODY_3_SIZE = 5/
mending: reset mode becomes 0@/^static void mend_body_3/,/^}/s/= blank_fields\[RESET_MODE\]/= RESET_OFF/
mending: alert becomes 1@/^static void mend_body_3/,/^}/s/= blank_fields\[ALERT\]/= ALERT_RESET/
mending: settings protected becomes 1@/^static void mend_body_3/,/^}/s/= blank_fields\[SETTINGS_PROTECTED\]/= 1/
mending: alert 3 left@/^static void mend_body_3/,/^}/s/fields\[ALERT\] > ALERT_DISABLE/fields[ALERT] > ALERT_DISABLE + 1/
mending: allowed values set to blank ones too@/^static void mend_body_3/,/^}/s/^    if (fields\[RESET_MODE\] > .*/    if (1)/
mending: body 6 set to its blank value@/^static void mend_body_3/,/^}/s/^    fields\[ZERO\] = 0;/&\n    memset(fields + PROTECTION, 0, 8);/
mending: ids set to their blank values@/^static void mend_body_3/,/^}/s/^    fields\[ZERO\] = 0;/&\n    memcpy(fields + IDS, blank_fields + IDS, 8);/
mending: checksum counted as one@/^uint64_t model_settings_mend/,/^}/s/put_changed(counts + 6, .*/put16(counts + 6, memcmp(before + CHECKSUM_AT, image + CHECKSUM_AT, 4) != 0);/
mending: checksum not counted@/^uint64_t model_settings_mend/,/^}/s/put_changed(counts + 6, before, image, CHECKSUM_AT/put_changed(counts + 6, before, image, SETTINGS_SIZE/
mending: filler counted from 198@/^uint64_t model_settings_mend/,/^}/s/image, form_1.filler_at, CHECKSUM_AT/image, form_2.filler_at, CHECKSUM_AT/
mending: last filler byte not counted@/^uint64_t model_settings_mend/,/^}/s/image, form_1.filler_at, CHECKSUM_AT/image, form_1.filler_at, CHECKSUM_AT - 1/
mending: last byte of the table not counted@/^uint64_t model_settings_mend/,/^}/s/image, 0, form_1.bodies_at/image, 0, form_1.bodies_at - 1/
mending: counts with the most significant byte first@/^static void put_changed/,/^}/s/put16(count, changed)/put16(count, changed << 8 | changed >> 8)/
mending: counts of one byte@/^static void put_changed/,/^}/s/put16(count, changed)/put16(count, changed \& 0xFF)/
mending: counts kept where nothing changed@/^uint64_t model_settings_mend/,/^}/s/^    memcpy(before, image, SETTINGS_SIZE);/    if (accepted) return 0;\n&/
counts size cut to a byte@s/counts_size != COUNTS_SIZE/(uint8_t)counts_size != COUNTS_SIZE/
record unlocked and asleep taken@s/if (unlocked && sleep > 0)/if (0)/
record with idle 10,000 taken@s/get32(record + AT_IDLE) >= IDLE_LIMIT/get32(record + AT_IDLE) > IDLE_LIMIT/
record with lock 2 taken@s/ || record\[AT_LOCK\] > 1)/ || record[AT_LOCK] > 2)/
record with a total below the count taken@s/tries < record\[AT_WRONG_COUNT\] || //
record with a total like the count refused@s/tries < record\[AT_WRONG_COUNT\] ||/(record[AT_WRONG_COUNT] > 0 \&\& tries <= record[AT_WRONG_COUNT]) ||/
record with a total of 65,536 taken@s/tries > TRIES_LARGEST)/tries > TRIES_LARGEST + 1)/
record with a total of 65,535 refused@s/tries > TRIES_LARGEST)/tries >= TRIES_LARGEST)/
record's total read by two bytes@s/tries = get32(record + AT_TRIES);/tries = get16(record + AT_TRIES);/
record with other MAIN taken@s/ || main_size != get32(record + AT_MAIN_SIZE)/ || main_size < get32(record + AT_MAIN_SIZE)/
reply area of 1,728 taken@s/reply_size < REPLY_AREA/reply_size < REPLY_AREA - 1/
10 checked before 9@s/^    if (reply_size < REPLY_AREA)/    if (record_size == RECORD_SIZE \&\& !is_record(record)) return refused(10);\n&/
standby checked before 10@s/^    if (settings_size != SETTINGS_SIZE || main_size/    if (record[AT_PHASE] > COMMAND) return 0;\n&/
fuse taken by its low byte@s/if (fuse != 0)/if ((uint8_t)fuse != 0)/
rate id cut to a byte@s/^static uint32_t rate(uint32_t id)/static uint32_t rate(uint8_t id)/
record keeps a start's old lock@s/memset(record, 0, AT_FIELDS)/memset(record + AT_SLEEP, 0, 16); record[AT_WRONG_COUNT] = 0/
window a byte early@s/WINDOW_START 0x20000160u/WINDOW_START 0x2000015Fu/
window a byte longer@s/count <= WINDOW_START + WINDOW_SIZE - first/count <= WINDOW_START + WINDOW_SIZE + 1 - first/
window without its last byte@s/address < WINDOW_START + WINDOW_SIZE/address < WINDOW_START + WINDOW_SIZE - 1/
Program of the window by AND@s/^        memcpy(place, core + 5, count);/        for (uint32_t i = 0; i < count; i++) place[i] \&= core[5 + i];/
Program of the window wants an aligned address@s/^    if (in_window(first)) {/    if (in_window(first) \&\& first % PROGRAM_UNIT == 0) {/
Program of the window wants an aligned size@s/^    if (in_window(first)) {/    if (in_window(first) \&\& count % PROGRAM_UNIT == 0) {/
Program of the window refused where the settings are protected@s/^    if (in_window(first)) {/    if (in_window(first) \&\& range_protected(loader, first, first)) return RANGE_INVALID;\n&/
Program of the window refused where it holds something@s/^    if (in_window(first)) {/    if (in_window(first) \&\& !all_ones(place, count)) return FLASH_ERROR;\n&/
0x24 leaves the window@s/^        memcpy(place, core + 5, count);/        if (core[0] == PROGRAM) memcpy(place, core + 5, count);/
Verify sums the window@s/place == NULL || in_window(get32(core + 1))/place == NULL/
Verify of the window tells 05 for 0B@s/    if (count < VERIFY_LEAST)/    if (count < VERIFY_LEAST \&\& !in_window(get32(core + 1)))/
Read back of the window taken from MAIN@s/^    reply\[0\] = MEMORY;/    if (in_window(get32(core + 1))) place = loader->main_flash;\n&/
Read back of the window at any readout@s/    if (get16(loader->fields + READOUT) != READOUT_ON)/    if (get16(loader->fields + READOUT) != READOUT_ON \&\& !in_window(get32(core + 1)))/
Mass erase clears the window@s/^    case MASS_ERASE:$/&\n        memset(loader->window, 0xFF, WINDOW_SIZE);/
Factory reset clears the window@/^static enum message factory_reset/,/^}/s/^    erase_everything(loader);/    memset(loader->window, 0, WINDOW_SIZE);\n&/
alert clears the window@s/^        erase_everything(loader);/        memset(loader->window, 0xFF, WINDOW_SIZE), erase_everything(loader);/
Range erase of the window answers 00@s/start > end || end >= loader->main_size/start > end || (end >= loader->main_size \&\& !(in_window(start) \&\& in_window(end)))/;s/^    if (range_protected(loader, start, end))/    if (in_window(start)) return DONE;\n&/
11 not looked at in a call@s/^    if (window_size != WINDOW_SIZE)/    if (0)/
window above 3,456 bytes taken@s/^    if (window_size != WINDOW_SIZE)/    if (window_size < WINDOW_SIZE)/
11 before 9@s/^    if (reply_size < REPLY_AREA)/    if (window_size != WINDOW_SIZE) return refused(11);\n&/
10 before 11@s/^    if (window_size != WINDOW_SIZE)/    if (record_size != RECORD_SIZE || !is_record(record)) return refused(10);\n&/
standby before 11@s/^    if (window_size != WINDOW_SIZE)/    if (record_size == RECORD_SIZE \&\& is_record(record) \&\& settings_size == SETTINGS_SIZE \&\& main_size == get32(record + AT_MAIN_SIZE) \&\& record[AT_PHASE] > COMMAND) return 0;\n&/
11 not looked at by start@s/settings_size == SETTINGS_SIZE && window_size != WINDOW_SIZE/0/
11 before 3 at start@s/settings_size == SETTINGS_SIZE && window_size != WINDOW_SIZE/window_size != WINDOW_SIZE/
11 after 8 at start@s/settings_size == SETTINGS_SIZE && window_size != WINDOW_SIZE/0/;/^static uint64_t start(/,/^}/s/^    if (record_size != RECORD_SIZE)/    if (window_size != WINDOW_SIZE) return refused(11);\n&/
window size cut to 16 bits@s/^    if (window_size != WINDOW_SIZE)/    if ((uint16_t)window_size != WINDOW_SIZE)/
MAIN size cut to 32 bits@s/static bool main_size_allowed(size_t size)/static bool main_size_allowed(uint32_t size)/
record size cut to 16 bits@s/record_size != RECORD_SIZE/(uint16_t)record_size != RECORD_SIZE/
settings size cut to 16 bits@s/^    if (size != SETTINGS_SIZE)/    if ((uint16_t)size != SETTINGS_SIZE)/
reply size cut to 16 bits@s/reply_size < REPLY_AREA/(uint16_t)reply_size < REPLY_AREA/
fields size cut to a byte@s/fields_size != FIELDS_SIZE/(uint8_t)fields_size != FIELDS_SIZE/
packet size cut to 16 bits@s/static uint8_t acknowledgement(const uint8_t \*packet, size_t size)/static uint8_t acknowledgement(const uint8_t *packet, uint16_t size)/
MISTAKES

# What a play on two boards must find by itself, with no model beside it (T-12).
try_mistakes 1 pairs <<'MISTAKES'
pairs: strike leaves MAIN@/fields\[ALERT\] == ALERT_RESET/{n;s/erase_everything(loader)/memset(loader->settings, 0xFF, SETTINGS_SIZE)/}
pairs: strike leaves the settings@/fields\[ALERT\] == ALERT_RESET/{n;s/erase_everything(loader)/erase_main(loader)/}
pairs: strike erases protected settings@/^static void erase_everything/,/^}/s/    if (!loader->fields\[SETTINGS_PROTECTED\])/    if (1)/
pairs: only the first byte of a password compared@s/memcmp(core + 1, loader->fields + PASSWORD, PASSWORD_SIZE)/memcmp(core + 1, loader->fields + PASSWORD, 1)/
pairs: password compared with the flash@s/memcmp(core + 1, loader->fields + PASSWORD,/memcmp(core + 1, loader->settings + (get16(loader->settings) == 2 ? form_2.bodies_at : form_1.bodies_at),/
pairs: another version told@s/loader->main_flash + pointer, VERSION_SIZE)/loader->main_flash + (pointer + 2 * VERSION_SIZE <= loader->main_size ? pointer + VERSION_SIZE : pointer), VERSION_SIZE)/
pairs: a locked board told apart by its form@s/^    if (refusal == DONE)/    if (refusal == LOCKED \&\& get16(loader->settings) == 2) loader->idle = 1;\n&/
pairs: a locked board told apart by its name@s/^    if (refusal == DONE)/    if (refusal == LOCKED \&\& get16(loader->settings) == 2 \&\& loader->settings[134] % 2 == 0) loader->idle = 1;\n&/
pairs: a locked board told apart by its flash@s/^    if (refusal == DONE)/    if (refusal == LOCKED \&\& loader->main_flash[0] % 2 == 0) loader->idle = 1;\n&/
MISTAKES

# T-10: what the AM13E230x has otherwise.
use_part am13e230x
try_mistakes <<'MISTAKES'
AM13E230x: only the first 8 bytes of protection looked at@s/return loader->fields\[PROTECTION + sector \/ 8\] >> sector % 8 & 1;/return sector < 64 \&\& (loader->fields[PROTECTION + sector \/ 8] >> sector % 8 \& 1);/
AM13E230x: protection of the first 64 sectors again and again@s/fields\[PROTECTION + sector \/ 8\]/fields[PROTECTION + sector \/ 8 % 8]/
AM13E230x: the 256th sector always open@s/return loader->fields\[PROTECTION + sector/return sector != 255 \&\& loader->fields[PROTECTION + sector/
AM13E230x: protection taken by 1,024 bytes@s/PROTECTION + sector \/ 8\] >> sector % 8 & 1/PROTECTION + 2 * sector \/ 8 % PROTECTION_SIZE] >> 2 * sector % 8 \& 1/
AM13E230x: sectors of 1,024 bytes@s/SECTOR_SIZE = 2048/SECTOR_SIZE = 1024/
AM13E230x: half of each sector erased@/^static void erase_sectors/,/^}/s/0xFF, SECTOR_SIZE)/0xFF, SECTOR_SIZE \/ 2)/
AM13E230x: alert and Factory reset erase half of the settings@/^static void erase_everything/,/^}/s/0xFF, SETTINGS_SIZE)/0xFF, IMAGE_END)/
AM13E230x: alert erases half of the settings@/^static enum message wrong_password/,/^}/s/        erase_everything(loader);/        { erase_main(loader); if (!loader->fields[SETTINGS_PROTECTED]) memset(loader->settings, 0xFF, IMAGE_END); }/
AM13E230x: Factory reset erases half of the settings@/^static enum message factory_reset/,/^}/s/    erase_everything(loader);/    erase_main(loader); if (!loader->fields[SETTINGS_PROTECTED]) memset(loader->settings, 0xFF, IMAGE_END);/
AM13E230x: blank told by the first half@s/all_ones(image, SETTINGS_SIZE)/all_ones(image, IMAGE_END)/
AM13E230x: blank told by the second half too late@s/    if (all_ones(image, SETTINGS_SIZE))/    if (all_ones(image, IMAGE_END) \&\& !all_ones(image + IMAGE_END, IMAGE_END)) return refused(7);\n&/
AM13E230x: second half not looked at@s/if (size > IMAGE_END \&\& !all_ones/if (0 \&\& !all_ones/
AM13E230x: last byte of the second half not looked at@s/all_ones(image + IMAGE_END, size - IMAGE_END)/all_ones(image + IMAGE_END, size - IMAGE_END - 1)/
AM13E230x: first byte of the second half not looked at@s/all_ones(image + IMAGE_END, size - IMAGE_END)/all_ones(image + IMAGE_END + 1, size - IMAGE_END - 1)/
AM13E230x: second half looked at after 8@s/^    if (size > IMAGE_END \&\& !all_ones/    if (body_3_allowed(image + (*form)->bodies_at) \&\& size > IMAGE_END \&\& !all_ones/
AM13E230x: second half not written@s/    memset(image + IMAGE_END, 0xFF, SETTINGS_SIZE - IMAGE_END);//
AM13E230x: second half out of reach@s/offset < SETTINGS_SIZE \&\& count <= SETTINGS_SIZE - offset/offset < IMAGE_END \&\& count <= IMAGE_END - offset/
AM13E230x: rate id 10 for 0x10@s/LAST_RATE = 0x10/LAST_RATE = 10/
AM13E230x: rate ids 11 to 15 taken@s/id == LAST_RATE;/(id >= 11 \&\& id <= LAST_RATE);/
AM13E230x: rate id 0x0A taken@s/id == LAST_RATE;/id == LAST_RATE || id == 10;/
AM13E230x: rate id 0x10 not taken@s/ || id == LAST_RATE;/;/
AM13E230x: rate id 0x10 not taken in a packet@s/!is_rate(core\[1\])/(core[1] < 1 || core[1] > 9)/
AM13E230x: rate ids to 0x10 taken in a packet@s/!is_rate(core\[1\])/(core[1] < 1 || core[1] > 0x10)/
AM13E230x: rate id 0x10 not taken in a record@s/!is_rate(record\[AT_RATE_ID\])/(record[AT_RATE_ID] < 1 || record[AT_RATE_ID] > 9)/
AM13E230x: rate ids to 0x10 taken in a record@s/!is_rate(record\[AT_RATE_ID\])/(record[AT_RATE_ID] < 1 || record[AT_RATE_ID] > 0x10)/
AM13E230x: rate of the other part@s/    if (!is_rate(id))/    if (id < 1 || id > 9)/
AM13E230x: rate 0x10 told as 3000000@s/: 4000000;/: 3000000;/
AM13E230x: words of 8 bytes@s/PROGRAM_UNIT = 16/PROGRAM_UNIT = 8/
AM13E230x: address at a multiple of 8@s/first % PROGRAM_UNIT != 0 ||/first % 8 != 0 ||/
AM13E230x: data size a multiple of 8@s/count % PROGRAM_UNIT != 0)/count % 8 != 0)/
AM13E230x: first half of each word looked at@s/if (!all_ones(place, count))/bool blank = true;\n    for (uint32_t i = 0; i < count; i += PROGRAM_UNIT) blank = blank \&\& all_ones(place + i, PROGRAM_UNIT \/ 2);\n    if (!blank)/
AM13E230x: Verify from 1,024@s/VERIFY_LEAST = 2048/VERIFY_LEAST = 1024/
AM13E230x: Verify of 2,048 refused@s/count < VERIFY_LEAST/count <= VERIFY_LEAST/
AM13E230x: Verify to 65,536@s/    if (count < VERIFY_LEAST)/    if (count > 65536) return send_message(reply, RANGE_INVALID);\n&/
AM13E230x: MAIN to 64 KiB@s/MAIN_LARGEST = 524288/MAIN_LARGEST = 65536/
AM13E230x: MAIN above 512 KiB@s/MAIN_LARGEST = 524288/MAIN_LARGEST = 526336/
AM13E230x: MAIN in steps of 1,024@s/size % SECTOR_SIZE == 0/size % 1024 == 0/
AM13E230x: MAIN of 1,024@s/size >= SECTOR_SIZE \&\&/(size == 1024 || size >= SECTOR_SIZE) \&\&/;s/size % SECTOR_SIZE == 0/(size == 1024 || size % SECTOR_SIZE == 0)/
AM13E230x: settings where the other part has them@s/SETTINGS_START 0x60100800u/SETTINGS_START 0x41C00000u/
AM13E230x: settings of 1,024 bytes@s/SETTINGS_SIZE = 2048/SETTINGS_SIZE = 1024/
AM13E230x: start takes settings of 1,024 bytes@/^static uint64_t start(/,/^}/s/judge_image(settings, settings_size, forms/judge_image(settings, settings_size == 1024 ? SETTINGS_SIZE : settings_size, forms/
AM13E230x: call takes settings of 1,024 bytes@s/    if (settings_size != SETTINGS_SIZE || main_size/    if ((settings_size != SETTINGS_SIZE \&\& settings_size != 1024) || main_size/
AM13E230x: version of 4 bytes@s/VERSION_SIZE = 8/VERSION_SIZE = 4/
AM13E230x: version at a multiple of 4@s/pointer % VERSION_SIZE == 0/pointer % 4 == 0/
AM13E230x: version's halves changed about@s/memcpy(version, loader->main_flash + pointer, VERSION_SIZE)/memcpy(version, loader->main_flash + pointer + 4, 4), memcpy(version + 4, loader->main_flash + pointer, 4)/
AM13E230x: version's second half 0@s/memcpy(version, loader->main_flash + pointer, VERSION_SIZE)/memcpy(version, loader->main_flash + pointer, 4)/
AM13E230x: four bytes more at the end of Info@s/rest = version + VERSION_SIZE/rest = version + 4/;s/    memcpy(rest + 8, loader->fields + IDS, IDS_SIZE);/&\n    memset(rest + 16, 0, 4);/
AM13E230x: Info says length 0x19@s/    put16(reply + 2, (uint32_t)length);/    put16(reply + 2, core[0] == DEVICE_INFO ? 0x19 : (uint32_t)length);/
AM13E230x: Info of 24 bytes@s/return 21 + VERSION_SIZE/return 21 + 4/
AM13E230x: form 1 taken@s/^static const struct form \*const forms\[\] = {&form_2, NULL};/static const struct form form_1 = {1, 6, 52, 126, {{1, 52, 32, 0}, {2, 84, 16, 0}, {3, 100, 6, 0}, {4, 106, 8, 0}, {5, 114, 4, 0}, {6, 118, 8, 0}}};\nstatic const struct form *const forms[] = {\&form_1, \&form_2, NULL};/
AM13E230x: writer takes form 1 for form 2@s/form_numbered(get16(fields + FORM))/form_numbered(get16(fields + FORM) == 1 ? 2 : get16(fields + FORM))/
AM13E230x: blank counts as form 1@s/BLANK_FORM = 2/BLANK_FORM = 1/
AM13E230x: protection of 8 bytes in the table@s/{6, 126, 32, 0}/{6, 126, 8, 0}/
AM13E230x: name at 134 in the table@s/{7, 158, 64, 0}/{7, 134, 64, 0}/
AM13E230x: filler from 198@s/^                                   222,/                                   198,/
AM13E230x: filler looked at from 223@s/all_ones(image + (\*form)->filler_at, CHECKSUM_AT - (\*form)->filler_at)/all_ones(image + 223, CHECKSUM_AT - 223)/
AM13E230x: name read at 134@/^static void read_fields/,/^}/s/image + form_2.bodies_at + KEPT_SIZE/image + 134/
AM13E230x: last byte of protection not kept@s/settings + form->bodies_at : blank_fields, KEPT_SIZE)/settings + form->bodies_at : blank_fields, KEPT_SIZE - 1)/
AM13E230x: checksum over 2,044 bytes@s/checksum(image, CHECKSUM_AT)/checksum(image, 2044)/
AM13E230x: checksum at the end of the settings@s/CHECKSUM_AT = 1020/CHECKSUM_AT = 2044/
AM13E230x: window reachable@/^enum { WINDOW_SIZE = 0 };/s/.*/enum { WINDOW_SIZE = 3456 };\nstatic uint8_t kept_window[3456];/;s/settings_size, NULL, WINDOW_SIZE/settings_size, kept_window, WINDOW_SIZE/
AM13E230x: record of the other part taken@/^static uint64_t call(/,/^}/s/record_size != RECORD_SIZE/record_size != RECORD_SIZE \&\& record_size != 94/
AM13E230x: start takes a record of the other part@/^static uint64_t start(/,/^}/s/record_size != RECORD_SIZE/record_size != RECORD_SIZE \&\& record_size != 94/
AM13E230x: record of the other part's size alone taken@s/RECORD_SIZE = AT_FIELDS + KEPT_SIZE/RECORD_SIZE = 94/
AM13E230x: reader takes fields of the other part@/^static uint64_t settings_read/,/^}/s/fields_size != FIELDS_SIZE/fields_size != FIELDS_SIZE \&\& fields_size != 140/
AM13E230x: writer takes fields of the other part@/^static uint64_t settings_write/,/^}/s/fields_size != FIELDS_SIZE/fields_size != FIELDS_SIZE \&\& fields_size != 140/
AM13E230x: 0x57 for a command that is locked@s/^    reply\[0\] = acknowledgement(packet, size);/&\n    if (reply[0] == ACKNOWLEDGED \&\& is_protected(packet[3]) \&\& !loader->unlocked) reply[0] = 0x57;/
AM13E230x: 0x57 for a wrong password@/^static size_t serve_command/,/^}/s/^    if (length == 0)$/    if (core[0] == MESSAGE \&\& core[1] == PASSWORD_WRONG) reply[0] = 0x57;\n&/
MISTAKES

try_mistakes 1 pairs <<'MISTAKES'
AM13E230x, pairs: strike leaves MAIN@/fields\[ALERT\] == ALERT_RESET/{n;s/erase_everything(loader)/memset(loader->settings, 0xFF, SETTINGS_SIZE)/}
AM13E230x, pairs: strike leaves the settings@/fields\[ALERT\] == ALERT_RESET/{n;s/erase_everything(loader)/erase_main(loader)/}
AM13E230x, pairs: strike erases half of each sector@/^static void erase_sectors/,/^}/s/0xFF, SECTOR_SIZE)/0xFF, SECTOR_SIZE \/ 2)/
AM13E230x, pairs: another version told@s/loader->main_flash + pointer, VERSION_SIZE)/loader->main_flash + (pointer + 2 * VERSION_SIZE <= loader->main_size ? pointer + VERSION_SIZE : pointer), VERSION_SIZE)/
AM13E230x, pairs: four bytes after a version of four told@s/loader->main_flash + pointer, VERSION_SIZE)/loader->main_flash + (pointer + VERSION_SIZE + 4 <= loader->main_size ? pointer + 4 : pointer), VERSION_SIZE)/
AM13E230x, pairs: a locked board told apart by its name@s/^    if (refusal == DONE)/    if (refusal == LOCKED \&\& get16(loader->settings) == 2 \&\& loader->settings[158] % 2 == 0) loader->idle = 1;\n&/
MISTAKES

echo "$tried mistakes, $missed not found"
[ "$missed" -eq 0 ]
