/* A small Lisp in one thread: pairs, symbols and closures are objects of the heap. It evaluates the file that is its argument, or a text of its own. */
#include "alone.h"
#include "fodderpause_tools.h"

#include <ctype.h>

/* What is read is evaluated in EXPRESSION and ENVIRONMENT, and comes to VALUE. */
enum { EXPRESSION = 1, ENVIRONMENT, VALUE, OPERATOR, OPERANDS, ITEM, OTHER, FRAME, NAMES, ROOTS, SCRATCH, SYMBOLS };

/* The kinds of objects, by how many fields they have. */
enum { PAIR = 2, CLOSURE = 3, SYMBOL = 4 };
enum { FIRST, REST };
enum { ITS_NAMES, ITS_BODY, ITS_ENVIRONMENT };
enum { ITS_TEXT, ITS_VALUE, ITS_FORM, IS_BOUND };

/* The forms that a symbol may stand for, 0 for none. */
static const char *const FORMS[] = {"", "quote", "if", "define", "lambda", "+", "-", "*", "<", "=", "cons", "car", "cdr", "null", "eq"};
enum { NO_FORM, QUOTE, IF, DEFINE, LAMBDA, PLUS, MINUS, TIMES, LESS, EQUAL, CONS, CAR, CDR, IS_NULL, EQ, FORM_COUNT };

static fodderpause_roots roots;
static const char *text;

static void fail(const char *why)
{
    fprintf(stderr, "%s\n", why);
    exit(1);
}

static void push(uint32_t r)
{
    if (fodderpause_push(&roots, r) != FODDERPAUSE_DONE) {
        fail("too deep");
    }
}

static void pop(uint32_t d)
{
    done(fodderpause_pop(&roots, d));
}

/* How many fields register r's object has, 0 where it holds none. */
static uint32_t fields_of(uint32_t r)
{
    fodderpause_number told = fodderpause_length(&seat, r);
    return told.code == FODDERPAUSE_DONE ? told.number : 0;
}

/* What register r holds, by way of the board. */
static fodderpause_cell held(uint32_t r)
{
    set(&seat, BOARD, 0, r);
    return get(&seat, SCRATCH, BOARD, 0);
}

/* Register d gets a pair of what a and b hold; d is neither. */
static void cons(uint32_t d, uint32_t a, uint32_t b)
{
    new_record(d, PAIR);
    set(&seat, d, FIRST, a);
    set(&seat, d, REST, b);
}

/* OPERATOR gets the symbol of this name, which is made where there is none. */
static void intern(const char *name)
{
    char other[64];
    for (copy(&seat, OTHER, SYMBOLS); fields_of(OTHER) == PAIR; get(&seat, OTHER, OTHER, REST)) {
        get(&seat, OPERATOR, OTHER, FIRST);
        get(&seat, ITEM, OPERATOR, ITS_TEXT);
        done(fodderpause_string_read(&seat, ITEM, SCRATCH, other, sizeof other));
        if (strcmp(name, other) == 0) {
            return;
        }
    }
    uint32_t form = FORM_COUNT - 1;
    while (form > NO_FORM && strcmp(name, FORMS[form]) != 0) {
        form--;
    }
    new_record(OPERATOR, SYMBOL);
    done(fodderpause_string_make(&seat, ITEM, SCRATCH, name));
    set(&seat, OPERATOR, ITS_TEXT, ITEM);
    done(fodderpause_set_number(&seat, OPERATOR, ITS_FORM, form, SCRATCH));
    cons(OTHER, OPERATOR, SYMBOLS);
    copy(&seat, SYMBOLS, OTHER);
}

static void skip_blanks(void)
{
    while (isspace((unsigned char) *text)) {
        text++;
    }
}

static void read_value(void);

/* VALUE gets the list whose opening parenthesis was read. */
static void read_list(void)
{
    skip_blanks();
    if (*text == '\0') {
        fail("a list that doesn't end");
    }
    if (*text == ')') {
        text++;
        nil(&seat, VALUE);
        return;
    }
    read_value();
    push(VALUE);
    read_list();
    pop(ITEM);
    cons(OTHER, ITEM, VALUE);
    copy(&seat, VALUE, OTHER);
}

/* VALUE gets what the text has next: a list, a number or a symbol. */
static void read_value(void)
{
    char name[64];
    skip_blanks();
    if (*text == '(') {
        text++;
        read_list();
        return;
    }
    size_t length = strcspn(text, "() \t\r\n");
    if (length == 0 || length >= sizeof name) {
        fail("a value is missing, or a name is too long");
    }
    memcpy(name, text, length);
    name[length] = '\0';
    text += length;
    if (isdigit((unsigned char) name[0])) {
        num(&seat, VALUE, (uint32_t) strtoul(name, NULL, 10));
    } else {
        intern(name);
        copy(&seat, VALUE, OPERATOR);
    }
}

/* VALUE gets what EXPRESSION, a symbol, is bound to. */
static void look_up(void)
{
    for (copy(&seat, OTHER, ENVIRONMENT); fields_of(OTHER) == PAIR; get(&seat, OTHER, OTHER, REST)) {
        get(&seat, ITEM, OTHER, FIRST);
        get(&seat, SCRATCH, ITEM, FIRST);
        if (fodderpause_same(&seat, SCRATCH, EXPRESSION).number == 1) {
            get(&seat, VALUE, ITEM, REST);
            return;
        }
    }
    if (get(&seat, VALUE, EXPRESSION, IS_BOUND).kind == FODDERPAUSE_NIL) {
        fail("a symbol isn't bound");
    }
    get(&seat, VALUE, EXPRESSION, ITS_VALUE);
}

static void evaluate(void);

/* VALUE gets what the operand comes to that is first; OPERANDS and ENVIRONMENT stay. */
static void evaluate_first(void)
{
    push(OPERANDS);
    push(ENVIRONMENT);
    get(&seat, EXPRESSION, OPERANDS, FIRST);
    evaluate();
    pop(ENVIRONMENT);
    pop(OPERANDS);
}

/* VALUE gets 1 or nil. */
static void tell(bool holds)
{
    if (holds) {
        num(&seat, VALUE, 1);
    } else {
        nil(&seat, VALUE);
    }
}

/* VALUE gets what a form makes of its one or two operands. */
static void apply_form(uint32_t form)
{
    evaluate_first();
    get(&seat, OPERANDS, OPERANDS, REST);
    if (form == CAR || form == CDR) {
        get(&seat, VALUE, VALUE, form == CAR ? FIRST : REST);
        return;
    }
    if (form == IS_NULL) {
        tell(held(VALUE).kind == FODDERPAUSE_NIL);
        return;
    }
    push(VALUE);
    evaluate_first();
    pop(ITEM);
    if (form == CONS) {
        cons(OTHER, ITEM, VALUE);
        copy(&seat, VALUE, OTHER);
        return;
    }
    if (form == EQ) {
        tell(fodderpause_same(&seat, ITEM, VALUE).number == 1);
        return;
    }
    uint32_t a = held(ITEM).number;
    uint32_t b = held(VALUE).number;
    if (form == LESS || form == EQUAL) {
        tell(form == LESS ? a < b : a == b);
        return;
    }
    num(&seat, VALUE, (form == PLUS ? a + b : form == MINUS ? a - b : a * b) & 0x3fffffff);
}

/* FRAME gets the closure's environment with each of its names bound to what its operand comes to; the closure is in VALUE. */
static void bind_operands(void)
{
    get(&seat, FRAME, VALUE, ITS_ENVIRONMENT);
    for (get(&seat, NAMES, VALUE, ITS_NAMES); fields_of(NAMES) == PAIR; get(&seat, NAMES, NAMES, REST)) {
        push(FRAME);
        push(NAMES);
        evaluate_first();
        pop(NAMES);
        pop(FRAME);
        get(&seat, ITEM, NAMES, FIRST);
        cons(OTHER, ITEM, VALUE);
        cons(ITEM, OTHER, FRAME);
        copy(&seat, FRAME, ITEM);
        get(&seat, OPERANDS, OPERANDS, REST);
    }
}

/* VALUE gets what EXPRESSION comes to in ENVIRONMENT. What is called last goes round the loop, and needs no room on the stack. */
static void evaluate(void)
{
    for (;;) {
        uint32_t fields = fields_of(EXPRESSION);
        if (fields == SYMBOL) {
            look_up();
            return;
        }
        if (fields != PAIR) {
            copy(&seat, VALUE, EXPRESSION);
            return;
        }
        get(&seat, OPERATOR, EXPRESSION, FIRST);
        get(&seat, OPERANDS, EXPRESSION, REST);
        uint32_t form = fields_of(OPERATOR) == SYMBOL ? get(&seat, SCRATCH, OPERATOR, ITS_FORM).number : NO_FORM;
        if (form == QUOTE) {
            get(&seat, VALUE, OPERANDS, FIRST);
            return;
        }
        if (form == IF) {
            evaluate_first();
            get(&seat, OPERANDS, OPERANDS, REST);
            if (held(VALUE).kind == FODDERPAUSE_NIL) {
                get(&seat, OPERANDS, OPERANDS, REST);
            }
            get(&seat, EXPRESSION, OPERANDS, FIRST);
            continue;
        }
        if (form == DEFINE) {
            get(&seat, OPERATOR, OPERANDS, FIRST);
            push(OPERATOR);
            get(&seat, OPERANDS, OPERANDS, REST);
            evaluate_first();
            pop(OPERATOR);
            set(&seat, OPERATOR, ITS_VALUE, VALUE);
            done(fodderpause_set_number(&seat, OPERATOR, IS_BOUND, 1, SCRATCH));
            copy(&seat, VALUE, OPERATOR);
            return;
        }
        if (form == LAMBDA) {
            new_record(VALUE, CLOSURE);
            get(&seat, ITEM, OPERANDS, FIRST);
            set(&seat, VALUE, ITS_NAMES, ITEM);
            get(&seat, OPERANDS, OPERANDS, REST);
            get(&seat, ITEM, OPERANDS, FIRST);
            set(&seat, VALUE, ITS_BODY, ITEM);
            set(&seat, VALUE, ITS_ENVIRONMENT, ENVIRONMENT);
            return;
        }
        if (form != NO_FORM) {
            apply_form(form);
            return;
        }
        push(OPERANDS);
        push(ENVIRONMENT);
        copy(&seat, EXPRESSION, OPERATOR);
        evaluate();
        pop(ENVIRONMENT);
        pop(OPERANDS);
        if (fields_of(VALUE) != CLOSURE) {
            fail("what is called is no closure");
        }
        push(VALUE);
        bind_operands();
        pop(VALUE);
        get(&seat, EXPRESSION, VALUE, ITS_BODY);
        copy(&seat, ENVIRONMENT, FRAME);
    }
}

/* Writes what VALUE holds. */
static void print(void)
{
    char name[64];
    uint32_t fields = fields_of(VALUE);
    if (fields == SYMBOL) {
        get(&seat, ITEM, VALUE, ITS_TEXT);
        done(fodderpause_string_read(&seat, ITEM, SCRATCH, name, sizeof name));
        fputs(name, stdout);
    } else if (fields == CLOSURE) {
        fputs("a closure", stdout);
    } else if (fields == PAIR) {
        putchar('(');
        for (bool is_first = true; fields_of(VALUE) == PAIR; is_first = false) {
            fputs(is_first ? "" : " ", stdout);
            push(VALUE);
            get(&seat, VALUE, VALUE, FIRST);
            print();
            pop(VALUE);
            get(&seat, VALUE, VALUE, REST);
        }
        putchar(')');
    } else {
        fodderpause_cell cell = held(VALUE);
        if (cell.kind == FODDERPAUSE_NUMBER) {
            printf("%u", (unsigned) cell.number);
        } else {
            fputs("nil", stdout);
        }
    }
}

static const char PROGRAM[] =
    "(define fib (lambda (n) (if (< n 2) n (+ (fib (- n 1)) (fib (- n 2))))))"
    "(fib 20)"
    "(define reverse (lambda (list onto) (if (null list) onto (reverse (cdr list) (cons (car list) onto)))))"
    "(reverse (quote (1 2 3 (4 5) six)) (quote ()))"
    "(define assoc (lambda (key list) (if (null list) list (if (eq key (car (car list))) (car list) (assoc key (cdr list))))))"
    "(assoc (quote b) (quote ((a 1) (b 2) (c 3))))"
    "(define adder (lambda (n) (lambda (m) (+ n m))))"
    "(define add-three (adder 3))"
    "(add-three (add-three 36))"
    "(define count (lambda (n made) (if (= n 0) made (count (- n 1) (cons n made)))))"
    "(define loop (lambda (n) (if (= n 0) (quote done) ((lambda (list) (loop (- n 1))) (count 100 (quote ()))))))"
    "(loop 1000)";

/* The whole file, which stays taken to the end. */
static const char *contents(const char *name)
{
    FILE *file = fopen(name, "rb");
    char *all = malloc(1 << 20);
    if (file == NULL || all == NULL) {
        fail("the file can't be read");
    }
    all[fread(all, 1, (1 << 20) - 1, file)] = '\0';
    fclose(file);
    return all;
}

int main(int arguments, char **argument)
{
    done(fodderpause_make(1024, 4096, 1, &collector, &seat, 1));
    done(fodderpause_roots_make(&roots, &seat, ROOTS, 4096));
    text = arguments > 1 ? contents(argument[1]) : PROGRAM;
    for (skip_blanks(); *text != '\0'; skip_blanks()) {
        read_value();
        copy(&seat, EXPRESSION, VALUE);
        nil(&seat, ENVIRONMENT);
        evaluate();
        print();
        putchar('\n');
    }
    close_heap();
    return 0;
}
