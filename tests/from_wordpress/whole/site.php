<?php
/*
 * Makes a site by WordPress's own code, and says what WordPress makes of it.
 *
 *     php site.php make PROFILE            makes the site of PROFILE in the empty database of wp-config.php
 *     php site.php export                  writes its export to standard output
 *     php site.php shown                   each published post and page as WordPress shows it, one line of JSON each
 *     php site.php addresses               each address that the site is known to have, one line each
 *
 * It runs in a folder that tests/from_wordpress/wordpress.py has made, with a wp-config.php for a database of its own.
 * PROFILE is `pottery` or `fournil`: see the arrays below. Texts, pictures and names are made up.
 */
error_reporting(E_ERROR | E_PARSE);
ini_set('display_errors', 'stderr');
ini_set('memory_limit', '-1');
[, $what, $profile] = array_pad($argv, 3, null);
$_SERVER += ['HTTP_HOST' => 'localhost', 'REQUEST_URI' => '/', 'REQUEST_METHOD' => 'GET', 'SERVER_PROTOCOL' => 'HTTP/1.1'];

const PROFILES = [
    'pottery' => [
        'url' => 'http://www.hollowoak.example', 'language' => '', 'permalinks' => '/%year%/%monthnum%/%postname%/',
        'title' => 'Hollow Oak Pottery', 'tagline' => 'Pots & plates, "hand-made"',
    ],
    'fournil' => [
        'url' => 'http://fournil.example', 'language' => 'fr_FR', 'permalinks' => '/%category%/%postname%/',
        'title' => 'Le Fournil', 'tagline' => "Du pain & plus",
    ],
];

if ('make' === $what) {
    define('WP_INSTALLING', true);
}
require './wp-load.php';

function picture($name, $width, $height, $title, $caption, $alt, $when, $parent = 0) {
    $folder = wp_upload_dir($when);
    $file = "$folder[path]/$name";
    $image = imagecreatetruecolor($width, $height);
    imagefilledrectangle($image, 0, 0, $width, $height, imagecolorallocate($image, crc32($name) % 200, 120, 90));
    imagejpeg($image, $file);
    $id = wp_insert_attachment([
        'post_title' => $title, 'post_excerpt' => $caption, 'post_mime_type' => 'image/jpeg', 'post_date' => "$when-03 10:00:00",
        'post_status' => 'inherit',
    ], $file, $parent);
    wp_update_attachment_metadata($id, wp_generate_attachment_metadata($id, $file));
    if ($alt) {
        update_post_meta($id, '_wp_attachment_image_alt', $alt);
    }
    return $id;
}

function sound($name, $title, $when) {
    $folder = wp_upload_dir($when);
    file_put_contents("$folder[path]/$name", str_repeat("\xff\xfb\x90\x00" . str_repeat("\0", 413), 20));
    return wp_insert_attachment([
        'post_title' => $title, 'post_mime_type' => 'audio/mpeg', 'post_status' => 'inherit', 'post_date' => "$when-03 10:00:00",
    ], "$folder[path]/$name");
}

function post($title, $content, $date, $more = []) {
    $id = wp_insert_post(wp_slash($more + [
        'post_title' => $title, 'post_content' => $content, 'post_date' => $date, 'post_status' => 'publish', 'post_author' => 1,
        'post_type' => 'post',
    ]), true);
    if (is_wp_error($id)) {
        fwrite(STDERR, "$title: {$id->get_error_message()}\n");
        exit(1);
    }
    return $id;
}

function comment($post, $author, $text, $date, $parent = 0, $more = []) {
    return wp_insert_comment(wp_slash($more + [
        'comment_post_ID' => $post, 'comment_author' => $author, 'comment_content' => $text, 'comment_date' => $date,
        'comment_parent' => $parent, 'comment_approved' => 1, 'comment_type' => 'comment',
        'comment_author_email' => 'reader@mail.example', 'comment_author_IP' => '192.0.2.7',
    ]));
}

function menu_entry($menu, $order, $fields) {
    return wp_update_nav_menu_item($menu, 0, ['menu-item-status' => 'publish', 'menu-item-position' => $order] + $fields);
}

function install($profile) {
    require ABSPATH . 'wp-admin/includes/upgrade.php';
    wp_install($profile['title'], 'hannah', 'hannah@mail.example', true, '', 'x', $profile['language']);
    wp_delete_post(1, true);
    wp_delete_post(2, true);
    wp_delete_post(3, true);
    foreach ([
        'home' => $profile['url'], 'siteurl' => $profile['url'], 'blogdescription' => $profile['tagline'],
        'permalink_structure' => $profile['permalinks'], 'WPLANG' => $profile['language'], 'template' => 'plain', 'stylesheet' => 'plain',
        'posts_per_page' => 10, 'timezone_string' => 'Europe/Berlin', 'date_format' => $profile['language'] ? 'j F Y' : 'F j, Y',
    ] as $name => $value) {
        update_option($name, $value);
    }
    global $wp_rewrite;
    $wp_rewrite->init();
    $wp_rewrite->flush_rules(false);
    wp_update_user(['ID' => 1, 'display_name' => 'Hannah Oake', 'user_nicename' => 'hannah']);
    wp_insert_user(['user_login' => 'tom_b', 'user_pass' => 'x', 'display_name' => 'Tom Büchner', 'role' => 'author']);
    require_once ABSPATH . 'wp-admin/includes/image.php';
    require_once ABSPATH . 'wp-admin/includes/nav-menu.php';
}

/** The filters by which WordPress shows a post, as a theme prints it. */
function shown($post) {
    global $pages, $page, $more, $multipage, $numpages;
    setup_postdata($GLOBALS['post'] = $post);
    $more = 1;
    $parts = [];
    for ($number = 1; $number <= $numpages; $number++) {
        $page = $number;
        $parts[] = apply_filters('the_content', get_the_content());
    }
    return ['id' => $post->ID, 'kind' => $post->post_type, 'path' => path_of(get_permalink($post)), 'title' => get_the_title($post),
        'parts' => $parts, 'thumbnail' => has_post_thumbnail($post)];
}

function path_of($url) {
    return substr($url, strlen(home_url()));
}

function published($type) {
    return get_posts(['post_type' => $type, 'post_status' => 'publish', 'numberposts' => -1, 'has_password' => false, 'orderby' => 'ID', 'order' => 'ASC']);
}

/** Prints an address and those of its parts and its feed. */
function listing($url, $count, $has_feed = true) {
    for ($part = 1; $part <= max(1, ceil($count / 10)); $part++) {
        echo path_of($part > 1 ? trailingslashit($url) . "page/$part/" : $url), "\n";
    }
    if ($has_feed) {
        echo path_of(trailingslashit($url) . 'feed/'), "\n";
    }
}

function addresses() {
    $posts = published('post');
    foreach (array_merge($posts, published('page')) as $post) {
        if ((int) get_option('page_for_posts') !== $post->ID) {
            echo path_of(get_permalink($post)), "\n";
            echo path_of(get_post_comments_feed_link($post->ID)), "\n";
        }
        $parts = substr_count($post->post_content, '<!--nextpage-->');
        for ($part = 2; $part <= $parts + 1; $part++) {
            echo path_of(get_permalink($post)), "$part/\n";
        }
        $kind = 'page' === $post->post_type ? 'page_id' : 'p';
        echo "/?$kind={$post->ID}\n";
    }
    foreach (get_posts(['post_type' => 'attachment', 'numberposts' => -1, 'post_status' => 'inherit']) as $file) {
        echo path_of(get_permalink($file)), "\n/?attachment_id={$file->ID}\n";
    }
    foreach (['category', 'post_tag'] as $taxonomy) {
        foreach (get_terms(['taxonomy' => $taxonomy, 'hide_empty' => true]) as $term) {
            $found = new WP_Query(['tax_query' => [['taxonomy' => $taxonomy, 'terms' => $term->term_id]], 'posts_per_page' => -1]);
            listing(get_term_link($term), $found->found_posts);
            echo 'category' === $taxonomy ? "/?cat={$term->term_id}\n" : "/?tag={$term->slug}\n";
        }
    }
    $lists = [];
    foreach ($posts as $post) {
        [$year, $month, $day] = explode('-', substr($post->post_date, 0, 10));
        foreach ([get_year_link($year), get_month_link($year, $month), get_day_link($year, $month, $day),
                  get_author_posts_url($post->post_author)] as $url) {
            $lists[$url] = ($lists[$url] ?? 0) + 1;
        }
        echo "/?m=$year$month\n";
    }
    foreach ($lists as $url => $count) {
        listing($url, $count, str_contains($url, '/author/'));
    }
    $front = get_option('page_for_posts') ? get_permalink(get_option('page_for_posts')) : home_url('/');
    listing($front, count($posts), false);
    foreach (['/', '/feed/', '/comments/feed/', '/feed/atom/', '/?feed=rss2', '/robots.txt'] as $path) {
        echo "$path\n";
    }
}

if ('make' === $what) {
    install(PROFILES[$profile]);
    require __DIR__ . "/$profile.php";
} elseif ('export' === $what) {
    require_once ABSPATH . 'wp-admin/includes/export.php';
    export_wp();
} elseif ('shown' === $what) {
    require __DIR__ . '/handlers.php';
    foreach (array_merge(published('post'), published('page')) as $post) {
        echo json_encode(shown($post), JSON_UNESCAPED_UNICODE | JSON_UNESCAPED_SLASHES), "\n";
    }
} elseif ('addresses' === $what) {
    flush_rewrite_rules(false);
    addresses();
} else {
    fwrite(STDERR, "site.php: make, export, shown or addresses\n");
    exit(2);
}
