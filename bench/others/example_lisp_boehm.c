/* examples/c/lisp.c on the collector of Boehm, Demers and Weiser: a small Lisp. It evaluates the text that it is handed on standard input. */
#include "boehm.h"

#include <ctype.h>
#include <stdbool.h>
#include <stdint.h>
#include <stdio.h>
#include <stdlib.h>
#include <string.h>

enum kind { PAIR, CLOSURE, SYMBOL, NUMBER };

static const char *const FORMS[] = {"", "quote", "if", "define", "lambda", "+", "-", "*", "<", "=", "cons", "car", "cdr", "null", "eq"};
enum { NO_FORM, QUOTE, IF, DEFINE, LAMBDA, PLUS, MINUS, TIMES, LESS, EQUAL, CONS, CAR, CDR, IS_NULL, EQ, FORM_COUNT };

typedef struct object {
    enum kind kind;
    struct object *first, *rest, *environment;
    const char *name;
    uint32_t number, form;
    bool is_bound;
} object;

static object *symbols;
static const char *text;

static void fail(const char *why)
{
    fprintf(stderr, "%s\n", why);
    exit(1);
}

static object *make(enum kind kind)
{
    object *made = GC_malloc(sizeof(object));
    made->kind = kind;
    return made;
}

static object *number(uint32_t n)
{
    object *made = make(NUMBER);
    made->number = n & 0x3fffffff;
    return made;
}

static object *cons(object *first, object *rest)
{
    object *made = make(PAIR);
    made->first = first;
    made->rest = rest;
    return made;
}

static object *intern(const char *name)
{
    for (object *other = symbols; other != NULL; other = other->rest) {
        if (strcmp(name, other->first->name) == 0) {
            return other->first;
        }
    }
    object *made = make(SYMBOL);
    made->name = strcpy(GC_malloc(strlen(name) + 1), name);
    for (made->form = FORM_COUNT - 1; made->form > NO_FORM && strcmp(name, FORMS[made->form]) != 0; made->form--) {
    }
    symbols = cons(made, symbols);
    return made;
}

static void skip_blanks(void)
{
    while (isspace((unsigned char) *text)) {
        text++;
    }
}

static object *read_value(void);

static object *read_list(void)
{
    skip_blanks();
    if (*text == '\0') {
        fail("a list that doesn't end");
    }
    if (*text == ')') {
        text++;
        return NULL;
    }
    object *first = read_value();
    return cons(first, read_list());
}

static object *read_value(void)
{
    char name[64];
    skip_blanks();
    if (*text == '(') {
        text++;
        return read_list();
    }
    size_t length = strcspn(text, "() \t\r\n");
    if (length == 0 || length >= sizeof name) {
        fail("a value is missing, or a name is too long");
    }
    memcpy(name, text, length);
    name[length] = '\0';
    text += length;
    return isdigit((unsigned char) name[0]) ? number((uint32_t) strtoul(name, NULL, 10)) : intern(name);
}

static object *look_up(object *symbol, object *environment)
{
    for (; environment != NULL; environment = environment->rest) {
        if (environment->first->first == symbol) {
            return environment->first->rest;
        }
    }
    if (!symbol->is_bound) {
        fail("a symbol isn't bound");
    }
    return symbol->first;
}

static object *evaluate(object *expression, object *environment);

static object *tell(bool holds)
{
    return holds ? number(1) : NULL;
}

static bool is_same(const object *a, const object *b)
{
    return a == b || (a != NULL && b != NULL && a->kind == NUMBER && b->kind == NUMBER && a->number == b->number);
}

static object *apply_form(uint32_t form, object *operands, object *environment)
{
    object *first = evaluate(operands->first, environment);
    if (form == CAR || form == CDR) {
        return form == CAR ? first->first : first->rest;
    }
    if (form == IS_NULL) {
        return tell(first == NULL);
    }
    object *second = evaluate(operands->rest->first, environment);
    switch (form) {
    case CONS: return cons(first, second);
    case EQ: return tell(is_same(first, second));
    case LESS: return tell(first->number < second->number);
    case EQUAL: return tell(first->number == second->number);
    case PLUS: return number(first->number + second->number);
    case MINUS: return number(first->number - second->number);
    default: return number(first->number * second->number);
    }
}

/* What is called last goes round the loop, and needs no room on the stack. */
static object *evaluate(object *expression, object *environment)
{
    for (;;) {
        if (expression == NULL || expression->kind == NUMBER || expression->kind == CLOSURE) {
            return expression;
        }
        if (expression->kind == SYMBOL) {
            return look_up(expression, environment);
        }
        object *operator = expression->first, *operands = expression->rest;
        uint32_t form = operator != NULL && operator->kind == SYMBOL ? operator->form : NO_FORM;
        if (form == QUOTE) {
            return operands->first;
        }
        if (form == IF) {
            object *branches = operands->rest;
            expression = evaluate(operands->first, environment) == NULL ? branches->rest->first : branches->first;
            continue;
        }
        if (form == DEFINE) {
            object *symbol = operands->first;
            symbol->first = evaluate(operands->rest->first, environment);
            symbol->is_bound = true;
            return symbol;
        }
        if (form == LAMBDA) {
            object *made = make(CLOSURE);
            made->first = operands->first;
            made->rest = operands->rest->first;
            made->environment = environment;
            return made;
        }
        if (form != NO_FORM) {
            return apply_form(form, operands, environment);
        }
        object *closure = evaluate(operator, environment);
        if (closure == NULL || closure->kind != CLOSURE) {
            fail("what is called is no closure");
        }
        object *frame = closure->environment;
        for (object *name = closure->first; name != NULL; name = name->rest, operands = operands->rest) {
            frame = cons(cons(name->first, evaluate(operands->first, environment)), frame);
        }
        expression = closure->rest;
        environment = frame;
    }
}

static void print(const object *value)
{
    if (value == NULL) {
        fputs("nil", stdout);
    } else if (value->kind == NUMBER) {
        printf("%u", (unsigned) value->number);
    } else if (value->kind == SYMBOL) {
        fputs(value->name, stdout);
    } else if (value->kind == CLOSURE) {
        fputs("a closure", stdout);
    } else {
        putchar('(');
        for (const object *rest = value; rest != NULL; rest = rest->rest) {
            fputs(rest == value ? "" : " ", stdout);
            print(rest->first);
        }
        putchar(')');
    }
}

int main(void)
{
    static char all[1 << 16];
    GC_init();
    all[fread(all, 1, sizeof all - 1, stdin)] = '\0';
    text = all;
    for (skip_blanks(); *text != '\0'; skip_blanks()) {
        print(evaluate(read_value(), NULL));
        putchar('\n');
    }
    return 0;
}
