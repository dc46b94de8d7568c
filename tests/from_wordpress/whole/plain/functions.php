<?php
/* A theme for the tests: it prints titles, contents and lists, and nothing else. */
add_action('after_setup_theme', function () {
    add_theme_support('html5', ['gallery', 'caption', 'comment-list']);
    add_theme_support('title-tag');
    add_theme_support('automatic-feed-links');
    add_theme_support('post-thumbnails');
});
