/* The end of a program that bison makes of a plain grammar: it reads a text character by character and prints `yes` where the
   grammar has it. `class_of`, above, gives the class of a character. */

static FILE *text;

static void yyerror(const char *said) { fprintf(stderr, "%s\n", said); }

/* The next character of UTF-8, or EOF. The text is known to be well formed. */
static int next_character(void) {
  int first = getc(text);
  if (first < 0x80) return first;
  int more = first < 0xE0 ? 1 : first < 0xF0 ? 2 : 3;
  int character = first & (0x3F >> more);
  while (more-- > 0) character = character << 6 | (getc(text) & 0x3F);
  return character;
}

static int yylex(void) {
  int character = next_character();
  return character == EOF ? 0 : class_of(character);
}

int main(int count, char **words) {
  text = count == 2 ? fopen(words[1], "rb") : NULL;
  if (!text || yyparse() != 0) return 1;
  puts("yes");
  return 0;
}
