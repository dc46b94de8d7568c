<?php
/*
 * The pipe alone: it replies to each line with the bytes of FILE. So geanmarbles dev bench wordpress knows what a request takes if
 * no page is made: the line's way here and the reply's way back.
 *
 *     php pipe.php FILE < COMMANDS
 */
$reply = file_get_contents($argv[1]);
while (false !== fgets(STDIN)) {
    fwrite(STDOUT, $reply);
}
