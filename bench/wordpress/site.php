<?php
/*
 * Lines of JSON, as the program `site` reads them, over WordPress's own functions: plugin.php, class-wp-hook.php,
 * shortcodes.php, formatting.php and kses.php, loaded from the WordPress at DIR.
 *
 *     php site.php DIR [--page-cache] < COMMANDS
 *
 * It serves what geanmarbles dev bench wordpress and tests/wordpress/run send: put, option, activate, deactivate, get of the front
 * page and of one post, `pass`, which times passes of a filter within this process, and `jit`, which asks whether PHP's
 * JIT is on. Posts and options are PHP arrays, and a page is the default template, printed by hand; the plugins below do
 * what those of crates/bundled_plugins of the same names do. WordPress itself does far more for a page than this: its
 * database, its theme, its other callbacks.
 *
 * With --page-cache the reply to each path is kept until the next edit, as a page cache in front of WordPress keeps it.
 */
error_reporting(E_ERROR | E_PARSE);
ini_set('display_errors', 'stderr');
ini_set('memory_limit', '-1');
set_time_limit(0);

define('ABSPATH', rtrim($argv[1] ?? '', '/') . '/');
define('WPINC', 'wp-includes');

// What these files call of the rest of WordPress.
function __($text) { return $text; }
function _doing_it_wrong() {}
function wp_allowed_protocols() { return ['http', 'https']; }
function wp_load_alloptions() { return ['blog_charset' => 'UTF-8']; }
function is_multisite() { return false; }
function get_option($name, $default = false) {
    global $options;
    return 'blog_charset' === $name ? 'UTF-8' : ($options[$name] ?? $default);
}
foreach (['plugin', 'formatting', 'kses', 'shortcodes'] as $file) {
    require ABSPATH . "wp-includes/$file.php";
}

// ------------------------------------------------------------------------------------------------------- the plugins
function bold($atts, $content = '') { return "<b>$content</b>"; }
function italic($atts, $content = '') { return '<i>' . do_shortcode($content) . '</i>'; }
function raw() { return '[b]y[/b]'; }
function off() { remove_shortcode('b'); return ''; }
function alloff() { remove_all_shortcodes(); return ''; }
function hush() { remove_all_filters('the_title', 10); return ''; }
function show($atts) {
    $named = $others = '';
    foreach (is_array($atts) ? $atts : [] as $name => $value) {
        if (is_int($name)) { $others .= "#$value;"; } else { $named .= "$name=$value;"; }
    }
    return $named . $others;
}
function shown_link($atts) {
    $given = shortcode_atts(['href' => '#', 'label' => 'link'], $atts);
    return '<a href="' . $given['href'] . '">' . $given['label'] . '</a>';
}
function asked() {
    $answers = [
        current_filter(), doing_filter('the_content'), did_action('init'), has_filter('the_content', 'do_shortcode'),
        shortcode_exists('b'), get_option('blogname'),
    ];
    return implode(',', array_map(fn($answer) => is_bool($answer) ? (int) $answer : $answer, $answers));
}
function deep($title) {
    $is_run = '' !== $title && strspn($title, 'd') === strlen($title);
    return $is_run ? '(' . apply_filters('the_title', substr($title, 1)) . ')' : $title;
}
function grow($title) {
    add_filter('the_title', 'grow_before', 5, 1);
    add_filter('the_title', 'grow_beside', 10, 1);
    add_filter('the_title', 'grow_after', 20, 1);
    return $title . 'a';
}
function grow_before($title) { return $title . '5'; }
function grow_beside($title) { return $title . '9'; }
function grow_after($title) { return $title . '7'; }
function args_none(...$given) { return 'n' . count($given); }
function args_all(...$given) { return $given[0] . '(' . count($given) . ' ' . ($given[1] ?? '') . ')'; }
function args_footer(...$given) { echo '[', count($given), ':', $given[0] ?? '', ']'; }
function mark_y($title) { return $title . 'Y'; }
function mark_x($title, $id = '') { return $title . 'X' . $id; }
function once_first($title) { return $title . '1'; }
function once_again($title) {
    remove_filter('the_title', 'once_again', 11);
    add_filter('the_title', 'once_again', 11, 1);
    return $title . '2';
}
function once_last($title) { return $title . '4'; }
function nest_first($title) { return $title . '1'; }
function nest_within($title) {
    remove_filter('the_title', 'nest_within', 11);
    $inner = apply_filters('the_title', '');
    add_filter('the_title', 'nest_within', 11, 1);
    return "$title-$inner-2";
}
function nest_after($title) { return $title . '3'; }
function nest_last($title) { return $title . '4'; }
function note() { add_action('wp_footer', 'note_footer', 10, 1); return '<sup>*</sup>'; }
function note_footer() { echo '<p>note</p>'; }
function ping() { do_action('ping'); return (string) did_action('ping'); }
function say() { echo 'E'; return 'A'; }
function tag_marked($output, $tag) { return $output . '{' . $tag . '}'; }

// What each plugin registers: [hook, priority, callback, accepted arguments], or [shortcode, handler].
$plugins = [
    'args' => [
        ['the_title', 10, 'args_none', 0], ['the_title', 20, 'args_all', 16], ['wp_footer', 10, 'args_footer', 1],
    ],
    'atts' => [['show', 'show'], ['link', 'shown_link'], ['ask', 'asked']],
    'bold' => [['b', 'bold'], ['i', 'italic'], ['raw', 'raw'], ['off', 'off'], ['alloff', 'alloff'], ['hush', 'hush']],
    'deep' => [['the_title', 10, 'deep', 1]],
    'grow' => [['the_title', 10, 'grow', 1]],
    'marks' => [['the_title', 10, 'mark_x', 1], ['the_title', 10, 'mark_y', 1], ['the_title', 10, 'mark_x', 2]],
    'nest' => [
        ['the_title', 10, 'nest_first', 1], ['the_title', 11, 'nest_within', 1],
        ['the_title', 11, 'nest_after', 1], ['the_title', 12, 'nest_last', 1],
    ],
    'note' => [['note', 'note'], ['ping', 'ping'], ['say', 'say']],
    'once' => [
        ['the_title', 10, 'once_first', 1], ['the_title', 11, 'once_again', 1],
        ['the_title', 12, 'once_last', 1],
    ],
    'tagmark' => [['do_shortcode_tag', 10, 'tag_marked', 2]],
];

// ---------------------------------------------------------------------------------------------------------- the site
$posts = [];
$options = [];
$active = [];
// The posts' IDs in the order in which the front lists them, or null if a post was stored since they were sorted.
// WordPress would ask its database for them, or have them from an object cache, until a post changes.
$listed = null;

function load_plugins() {
    global $plugins, $active, $wp_filter, $wp_actions, $wp_filters, $wp_current_filter, $shortcode_tags;
    $wp_filter = $wp_actions = $wp_filters = $wp_current_filter = $shortcode_tags = [];
    add_filter('the_content', 'do_shortcode', 11);
    ksort($active, SORT_STRING);
    foreach (array_keys($active) as $name) {
        foreach ($plugins[$name] as $one) {
            if (2 === count($one)) {
                add_shortcode($one[0], $one[1]);
            } else {
                add_filter($one[0], $one[2], $one[1], $one[3]);
            }
        }
    }
}
function found($path) {
    global $posts, $options, $listed;
    if (preg_match('~\A/\?p=([0-9]+)\z~', $path, $match)) {
        return isset($posts[(int) $match[1]]) ? [(int) $match[1]] : [];
    }
    if (null === $listed) {
        $listed = array_keys($posts);
        usort($listed, fn($a, $b) => strcmp($posts[$b][2], $posts[$a][2]) ?: $b - $a);
    }
    return array_slice($listed, 0, (int) ($options['posts_per_page'] ?? 10));
}
function page($path) {
    global $posts;
    $ids = found($path);
    ob_start();
    load_plugins();
    foreach (['plugins_loaded', 'init', 'wp_loaded', 'wp', 'template_redirect', 'wp_head'] as $hook) {
        do_action($hook);
    }
    foreach ($ids as $id) {
        echo '<h2>', apply_filters('the_title', $posts[$id][0], (string) $id), '</h2>';
        echo str_replace(']]>', ']]&gt;', apply_filters('the_content', $posts[$id][1]));
    }
    do_action('wp_footer');
    return ob_get_clean();
}

// Nanoseconds of a pass over `$count` callbacks that give the value back, the best of many.
function pass_over($count, $spread) {
    for ($i = 0; $i < $count; $i++) { add_filter('timed', function ($value) { return $value; }, $spread ? $i : 10, 1); }
    $times = max(1, intdiv(2000, $count));
    $best = INF;
    for ($run = 0; $run < 25; $run++) {
        $begin = hrtime(true);
        for ($i = 0; $i < $times; $i++) { apply_filters('timed', 'value'); }
        $best = min($best, (hrtime(true) - $begin) / $times);
    }
    remove_all_filters('timed');
    return $best;
}

function is_jit_on() {
    $status = function_exists('opcache_get_status') ? opcache_get_status(false) : [];
    return $status['jit']['on'] ?? false;
}

function reply_to($command) {
    global $posts, $options, $active, $listed;
    switch ($command['cmd']) {
        case 'put':
            $posts[] = [$command['title'] ?? '', $command['content'] ?? '', $command['date']];
            $listed = null;
            return 'ok ' . array_key_last($posts) . "\n";
        case 'edit':
            // A title or a content: the list stays as it is, where WordPress would ask its database for it again.
            $posts[$command['id']][0] = $command['title'] ?? $posts[$command['id']][0];
            $posts[$command['id']][1] = $command['content'] ?? $posts[$command['id']][1];
            return "ok\n";
        case 'option':
            $options[$command['name']] = $command['value'];
            return "ok\n";
        case 'activate':
            $active[$command['plugin']] = true;
            return "ok\n";
        case 'deactivate':
            unset($active[$command['plugin']]);
            return "ok\n";
        case 'get':
            $page = page($command['path']);
            return 'page 200 ' . strlen($page) . "\n$page\n";
        case 'pass':
            return 'ok ' . (int) pass_over($command['count'], $command['spread']) . "\n";
        case 'jit':
            // 1 or 2, since no reply has the number 0.
            return 'ok ' . (1 + (int) is_jit_on()) . "\n";
    }
    return "refused 1 BadCommand\n";
}
$posts[0] = null;
unset($posts[0]);

$has_cache = '--page-cache' === ($argv[2] ?? '');
$replies = [];
while (false !== ($line = fgets(STDIN))) {
    $command = json_decode($line, true);
    if (!$has_cache) {
        fwrite(STDOUT, reply_to($command));
    } elseif ('get' === $command['cmd']) {
        fwrite(STDOUT, $replies[$command['path']] ??= reply_to($command));
    } else {
        $replies = [];
        fwrite(STDOUT, reply_to($command));
    }
}
