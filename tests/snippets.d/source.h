/*
 * What `tests/snippets --selftest` finds nothing wrong with:
 *     indented, and no command.
 *
 *     test -f said.txt
 *     rm said.txt
 *
 * Text.
 */
