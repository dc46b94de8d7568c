<?php
/* Stands in for plugins whose shortcodes the sites have: what a page builder, a form and a button print. */
foreach (['et_pb_section', 'et_pb_row', 'et_pb_column', 'et_pb_text'] as $tag) {
    add_shortcode($tag, fn($given, $content = '') => '<div>' . do_shortcode($content) . '</div>');
}
add_shortcode('et_pb_image', fn($given) => "<div><img src=\"$given[src]\" alt=\"$given[alt]\"></div>");
add_shortcode('et_pb_blurb', fn($given, $content = '') => "<div><h4>$given[title]</h4>" . do_shortcode($content) . '</div>');
add_shortcode('et_pb_button', fn($given) => "<div><a href=\"$given[button_url]\">$given[button_text]</a></div>");
add_shortcode('contact-form-7', fn() => '<form><p><label>Your name <input name="n"></label></p></form>');
add_shortcode('button', fn($given, $content = '') => "<a class=\"button\" href=\"$given[url]\">$content</a>");
