/* Writes the messages that are measured into a folder, one file each. Their content is invented, and the same every time. */
#include <stdarg.h>
#include <stdint.h>
#include <stdio.h>
#include <stdlib.h>
#include <string.h>

/* What a message of each form may have. */
enum { SMALL = 16384, LARGE = 1048576 };
enum { LINE = 219, MORE = 217 };

static char message[LARGE + 1];
static size_t bytes, most = SMALL;

static void begin(void)
{
    bytes = 0;
}

static void add(const char *form, ...)
{
    va_list words;
    va_start(words, form);
    int more = vsnprintf(message + bytes, sizeof message - bytes, form, words);
    va_end(words);
    if (more < 0 || bytes + (size_t)more > most) {
        fprintf(stderr, "messages: a message passes %zu bytes\n", most);
        exit(2);
    }
    bytes += more;
}

/* The bytes that a segment of so many takes in lines (W2). */
static size_t in_lines(size_t length)
{
    return length + 1 + (length > LINE ? (length - LINE + MORE - 1) / MORE * 3 : 0);
}

/* Puts a segment behind the message, in filled lines. */
static void add_in_lines(const char *segment)
{
    size_t left = strlen(segment), room = LINE;
    for (; left > room; room = MORE) {
        add("%.*s\rA|", (int)room, segment);
        segment += room;
        left -= room;
    }
    add("%s\r", segment);
}

static void save(const char *folder, const char *name)
{
    char path[4096];
    snprintf(path, sizeof path, "%s/%s", folder, name);
    FILE *file = fopen(path, "wb");
    if (!file || fwrite(message, 1, bytes, file) != bytes || fclose(file) != 0) {
        perror(path);
        exit(2);
    }
}

/* Sixteen analyses: code, name, value, unit, range. */
static const char *const analyses[16][5] = {
    { "GLY", "Glycemie", "5.12", "mmol/L", "3.90-6.10" }, { "URE", "Uree", "6.4", "mmol/L", "2.5-7.5" },
    { "CRE", "Creatinine", "78", "umol/L", "60-105" },    { "NA", "Sodium", "140", "mmol/L", "136-145" },
    { "K", "Potassium", "4.2", "mmol/L", "3.5-5.0" },     { "CL", "Chlore", "102", "mmol/L", "98-107" },
    { "CA", "Calcium", "2.31", "mmol/L", "2.20-2.60" },   { "HB", "Hemoglobine", "14.1", "g/dL", "13.0-17.0" },
    { "HT", "Hematocrite", "42", "%", "40-52" },          { "GB", "Leucocytes", "6.8", "G/L", "4.0-10.0" },
    { "GR", "Hematies", "4.71", "T/L", "4.50-5.70" },     { "PLQ", "Plaquettes", "251", "G/L", "150-400" },
    { "CRP", "Proteine C", "3", "mg/L", "0-5" },          { "TSH", "Thyreostimuline", "1.85", "mUI/L", "0.40-4.00" },
    { "FER", "Ferritine", "96", "ug/L", "30-300" },       { "VS", "Sedimentation", "8", "mm", "0-15" },
};

static void header(const char *context)
{
    add("H|~^\\&|A0001||LAB~Laboratoire Essai||%s|||RECEP~Clinique Essai|P|H2.4~L|20240102030405\r", context);
}

static void patient(int number)
{
    add("P|%d|PAT%05d||DOS%05d|ESSAI~PATIENT%d||19700101|M||1 RUE DE L'ESSAI~~VILLE~~00000||||||ENTREE\r",
        number, number, number, number);
}

static void order(int number)
{
    add("OBR|%d|D%05d~DEMANDE|L%05d~LABO|BIO~Bilan~L||202401020304|||202401020405|SANG VEINEUX||MED%d~ESSAI\r",
        number, number, number, number);
}

static void result(int number)
{
    const char *const *a = analyses[number % 16];
    add("OBX|%d|NM|%s~%s||%s|%s|%s|N|F|202401020405\r", number, a[0], a[1], a[2], a[3], a[4]);
}

/* A laboratory's answer to one order, of the usual size. */
static void typical(void)
{
    begin();
    header("ORU");
    patient(1);
    order(1);
    for (int i = 1; i <= 20; i++)
        result(i);
    add("C|1||Prelevement a jeun~resultats valides\r");
    add("L|1||1|23\r");
}

/* As many leaves as the form has, in texts of usual length. */
static void many_leaves(void)
{
    begin();
    header("ORU");
    patient(1);
    for (int i = 0; i < 129; i++) {
        const char *const *a = analyses[i % 16];
        if (i % 12 == 0)
            order(i / 12 + 1);
        add("OBX|%d|NM|%s~%s||%s|%s|%s, adulte 18+|N|VALIDE le 02/01/2024|F|202401020405~TECH01\r",
            i % 12 + 1, a[0], a[1], a[2], a[3], a[4]);
    }
    add("L|1\r");
}

/* As many leaves as the form has, of two bytes and less, split by all four separators. */
static void dense(void)
{
    begin();
    add("H|~^\\&|||LAB||ORU\rP|1||||X~Y\rOBR|1\r");
    for (int i = 1; i <= 70; i++)
        add("OBX|%d|CE|A%d~B1^12~2^xyz&yz|||12.5~3|abc||NN^%d~cd&dd|10~23^45~5|eee|FF|gh&hh|777|ii\r", i, i % 10, i % 7);
    add("L|1\r");
}

/* One long text in addenda, each line filled, up to the last byte that a message may have. */
static void long_text(void)
{
    static const char words[] = "Le prelevement est conforme, la culture reste sterile a 48 heures et aucun germe n'est retrouve. ";
    begin();
    add("H|~^\\&|||LAB||ORU\rP|1||||X~Y\rOBR|1\r");
    add("OBX|1|TX|CONCL||");
    for (size_t used = 16, room = LINE, w = 0; bytes < SMALL - 5; used++) {
        if (used == room) {
            add("\rA|");
            used = 0;
            room = MORE;
        }
        add("%c", words[w++ % (sizeof words - 1)]);
    }
    add("\rL|1\r");
}

/* The leaves so far (S3): one for each byte behind the header's seven that splits, one for each segment, and two more. */
static size_t leaf_count(void)
{
    size_t count = 2;
    for (size_t i = 7; i < bytes; i++)
        count += strchr("|~^&\r", message[i]) != NULL;
    return count;
}

/* One order, and just so many leaves in all: the last result has eleven, and a comment before it has those that whole results leave over. */
static void of_leaves(size_t count)
{
    enum { RESULT = 12, LAST = 11, END = 2 };
    int number = 1;
    begin();
    header("ORU");
    patient(1);
    order(1);
    while (leaf_count() + RESULT + LAST + END <= count)
        result(number++);
    size_t over = count - LAST - END - leaf_count();
    for (size_t i = 0; i < over; i++)
        add(i ? "|valide" : "C");
    if (over > 0)
        add("\r");
    add("OBX|%d|NM|GLY~Glycemie||5.12|mmol/L|3.90-6.10|N|F\r", number);
    add("L|1\r");
}

/* A comment of so many leaves, one at least. */
static void comment(size_t count)
{
    add("C");
    for (size_t i = 1; i < count; i++)
        add("|valide");
    add("\r");
}

/* An order of so many results, the same ten again and again. */
static void order_of(size_t results)
{
    order(1);
    for (size_t i = 0; i < results; i++)
        result((int)(i % 10 + 1));
}

/* As many such orders as go into so many leaves, but an odd number, so that one is the middle one; comments before them have what is left over. */
static void of_orders(size_t results, size_t count)
{
    enum { COMMENT = 12, END = 2 };
    begin();
    header("ORU");
    patient(1);
    size_t head = leaf_count();
    order_of(results);
    size_t each = leaf_count() - head, orders = (count - head - END) / each;
    orders -= orders % 2 == 0;
    size_t over = count - head - END - orders * each;
    begin();
    header("ORU");
    patient(1);
    for (; over > 0; over -= over < COMMENT ? over : COMMENT)
        comment(over < COMMENT ? over : COMMENT);
    for (; orders > 0; orders--)
        order_of(results);
    add("L|1\r");
}

/* A report that keeps all rules for screening: patients of one order, with the four pseudo-analyses and so many results, in turn coded and not. */
static void of_patients(int patients, int results)
{
    begin();
    header("ORU");
    for (int n = 1; n <= patients; n++) {
        add("P|%d||||ESSAI~PATIENT%d|ESSAI||||~~~~00000||0100000000\rOBR|1||T%05d~L%05d|BIO|||202401020304\r", n, n, n, n);
        add("OBX|1|CE|PAYS||FR\rOBX|2|CE|TYPOR||I\rOBX|3|CE|PROSS||N\rOBX|4|ST|FINGE||990000025\r");
        for (int i = 0; i < results; i++)
            add(i % 2 ? "OBX|%d|NM|CT||25.3\r" : "OBX|%d|CE|94500-6~~LN||N\r", i + 5);
    }
    add("L|1\r");
}

/* One shape at a size: orders of seven results, the last result's text as long as is needed. */
static void of_size(size_t size)
{
    begin();
    header("ORU");
    patient(1);
    for (int i = 0; bytes + 300 < size; i++) {
        if (i % 8 == 0) {
            add("OBR|%d|D%05d|L%05d|BIO~Bilan annuel|202401020304|SANG VEINEUX~TUBE SEC\r", i / 8 + 1, i, i);
        } else {
            const char *const *a = analyses[i % 16];
            add("OBX|%d|NM|%s~%s||%s|%s|%s, methode enzymatique, automate 1\r", i, a[0], a[1], a[2], a[3], a[4]);
        }
    }
    add("OBX|1|TX|FIN||");
    while (bytes < size - 5 - 75)
        add("x");
    add("\rOBX|2|TX|FIN||");
    while (bytes < size - 5)
        add("y");
    add("\rL|1\r");
}

/* ---- messages of the large form ---- */

/* A document as it is sent within a result: one text in addenda, of the letters of base 64, each line filled, and just so many bytes in all. */
static void document(size_t size)
{
    static const char letters[] = "ABCDEFGHIJKLMNOPQRSTUVWXYZabcdefghijklmnopqrstuvwxyz0123456789+/";
    static char segment[LARGE];
    uint32_t drawn = 1;
    begin();
    add("H|~^\\&|||LAB||ORU\rP|1||||X~Y\rOBR|1\r");
    static const char front[] = "OBX|1|ED|CR||", end[] = "L|1\r";
    size_t room = size - bytes - strlen(end), length = strlen(front);
    memcpy(segment, front, length);
    while (in_lines(length + 1) <= room) {
        drawn = drawn * 1103515245 + 12345;
        segment[length++] = letters[drawn >> 16 & 63];
    }
    segment[length] = 0;
    add_in_lines(segment);
    add("%s", end);
    if (bytes != size) {
        fprintf(stderr, "messages: a document of %zu bytes has %zu\n", size, bytes);
        exit(2);
    }
}

/* Puts a remark behind a segment, so that it has so many bytes. */
static void fill_up(char *segment, size_t length)
{
    static const char remark[] = "Prelevement recu a temperature ambiante dans les deux heures, tube conforme, identite verifiee, sans hemolyse visible, dosage "
                                 "repete sur un second prelevement, resultat confirme, a rapprocher du contexte clinique et du bilan precedent";
    size_t used = strlen(segment);
    memcpy(segment + used, remark, length - used);
    segment[length] = 0;
}

/*
 * Orders of eight results, as far as they go into a size. All segments but the last have 14 to 16 leaves and some 260 bytes: so 4,096 segments and 65,536
 * leaves do for a megabyte, and a byte of a short message costs about what one of a long message does.
 */
static void results(size_t size)
{
    enum { HEADER = 238, HEAD = 253, RESULT = 258, EACH = 8 };
    static const char end[] = "L|1\r";
    char segment[RESULT + 1];
    begin();
    snprintf(segment, sizeof segment, "H|~^\\&|A0001||LAB~Laboratoire Essai||ORU|||RECEP~Clinique Essai|P|");
    fill_up(segment, HEADER);
    add_in_lines(segment);
    snprintf(segment, sizeof segment, "P|1|PAT00001||DOS00001|ESSAI~PATIENT||19700101|F||1 RUE DE L'ESSAI~~VILLE|");
    fill_up(segment, HEAD);
    add_in_lines(segment);
    for (int i = 0; bytes + (i % EACH ? 0 : in_lines(HEAD)) + in_lines(RESULT) + strlen(end) <= size; i++) {
        const char *const *a = analyses[i % 16];
        if (i % EACH == 0) {
            snprintf(segment, sizeof segment, "OBR|%d|D%05d~DEMANDE|L%05d~LABO|BIO~Bilan annuel||202401020304|||202401020405|SANG VEINEUX||", i / EACH + 1, i, i);
            fill_up(segment, HEAD);
            add_in_lines(segment);
        }
        snprintf(segment, sizeof segment, "OBX|%d|NM|%s~%s||%s|%s|%s|N|||F|202401020405~TECH01|", i % EACH + 1, a[0], a[1], a[2], a[3], a[4]);
        fill_up(segment, RESULT);
        add_in_lines(segment);
    }
    add("%s", end);
}

int main(int words, char **word)
{
    if (words != 2) {
        fprintf(stderr, "usage: messages FOLDER\n");
        return 2;
    }
    begin();
    add("H|~^\\&|||||ADM\rP\rL\r");
    save(word[1], "least-19");
    begin();
    add("H|~^\\&|||||ERR\rERR\rL\r");
    save(word[1], "least-21");
    begin();
    add("H|~^\\&|||LAB||ORU\rP|1||||DUPONT~JEAN\rOBR|1\rOBX|1|NM|GLY||1.2\rL|1\r");
    save(word[1], "K1");
    typical();
    save(word[1], "typical");
    many_leaves();
    save(word[1], "many");
    dense();
    save(word[1], "dense");
    long_text();
    save(word[1], "long");
    of_leaves(300);
    save(word[1], "leaves-300");
    of_leaves(2048);
    save(word[1], "leaves-2048");
    of_orders(10, 300);
    save(word[1], "order-10-300");
    of_orders(20, 300);
    save(word[1], "order-20-300");
    of_orders(20, 2048);
    save(word[1], "order-20-2048");
    static const struct { const char *name; int patients, results; } reports[] = {
        { "report-30-1", 1, 22 },  { "report-100-1", 1, 92 }, { "report-250-1", 1, 242 },
        { "report-34-4", 4, 2 },   { "report-98-12", 12, 2 }, { "report-250-31", 31, 2 },
    };
    for (size_t i = 0; i < sizeof reports / sizeof *reports; i++) {
        of_patients(reports[i].patients, reports[i].results);
        save(word[1], reports[i].name);
    }
    for (size_t size = 1; size <= 16; size *= 2) {
        char name[16];
        snprintf(name, sizeof name, "grow-%02zu", size);
        of_size(size * 1024);
        save(word[1], name);
    }
    most = LARGE;
    for (size_t size = 1; size <= 1024; size *= 4) {
        char name[16];
        results(size * 1024);
        snprintf(name, sizeof name, "results-%zu", size);
        save(word[1], name);
        if (size * 1024 <= SMALL)
            continue;
        document(size * 1024);
        snprintf(name, sizeof name, "document-%zu", size);
        save(word[1], name);
    }
    return 0;
}
