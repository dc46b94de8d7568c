<?php
/*
 * WordPress's own functions for texts: replies to each line of JSON, [FUNCTION, TEXT], with what the function makes of it.
 *
 *     php texts.php DIR < LINES
 *
 * DIR is WordPress's folder. wptexturize and wpautop are what is asked for; `caption` is the
 * one shortcode that is known.
 */
error_reporting(E_ERROR | E_PARSE);
ini_set('display_errors', 'stderr');
define('ABSPATH', rtrim($argv[1] ?? '', '/') . '/');
define('WPINC', 'wp-includes');

// What these files call of the rest of WordPress.
function __($text) { return $text; }
function _x($text) { return $text; }
function get_option($name, $default = false) { return 'blog_charset' === $name ? 'UTF-8' : $default; }
foreach (['plugin', 'formatting', 'kses', 'shortcodes'] as $file) {
    require ABSPATH . "wp-includes/$file.php";
}
add_shortcode('caption', fn() => '');
while (($line = fgets(STDIN)) !== false) {
    [$function, $text] = json_decode($line, true);
    if (!in_array($function, ['wptexturize', 'wpautop'], true)) {
        exit(2);
    }
    echo json_encode($function($text), JSON_UNESCAPED_UNICODE | JSON_UNESCAPED_SLASHES), "\n";
}
