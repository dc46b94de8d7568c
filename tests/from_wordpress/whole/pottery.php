<?php
/*
 * The site of a pottery: eight years of posts from both editors, a page builder's front, galleries and captions, a menu,
 * comments, and posts that nobody may see. Loaded by site.php.
 */
$when = ['2013/04', '2014/09', '2016/05', '2018/11', '2020/02'];
$pictures = [];
for ($number = 1; $number <= 18; $number++) {
    $pictures[] = picture(
        ['bowl', 'kiln', 'glaze', 'wheel', 'jug', 'plate'][$number % 6] . "-$number.jpg", $number % 3 ? 800 : 480, $number % 3 ? 600 : 640,
        "Picture $number", $number % 2 ? "The \"big\" one, no. $number & more" : '', $number % 4 ? "A pot, no. $number's" : '',
        $when[$number % 5]
    );
}
$src = fn($at, $size = 'medium') => wp_get_attachment_image_src($pictures[$at], $size)[0];
$sound = sound('kilns.mp3', 'A podcast about kilns', '2016/05');

$glazes = wp_insert_term('Glazes & Firing', 'category')['term_id'];
$celadon = wp_insert_term('Celadon', 'category', ['parent' => $glazes])['term_id'];
$courses = wp_insert_term('Courses', 'category')['term_id'];
$shop = wp_insert_term('From the shop', 'category')['term_id'];
foreach (['raku', 'stoneware', 'wheel thrown', 'tips "n" tricks', 'wood-firing', 'Müsli bowls'] as $name) {
    wp_insert_term($name, 'post_tag');
}
$tags = get_terms(['taxonomy' => 'post_tag', 'hide_empty' => false, 'fields' => 'names']);

$about = post('About us', "We've made pots since 1998.\n\n[caption id=\"attachment_{$pictures[0]}\" align=\"alignright\" width=\"300\"]<a href=\"" . $src(0, 'full') . "\"><img class=\"size-medium wp-image-{$pictures[0]}\" src=\"" . $src(0) . "\" alt=\"A bowl\" width=\"300\" height=\"225\" /></a> The first bowl -- still \"in use\"[/caption]\n\nHannah throws, Tom fires. It's a good life.\n<blockquote>Clay is patient.\n\nAnd so are we.</blockquote>\nCome and see us at our <a href=\"http://www.hollowoak.example/contact/find-us/\">workshop</a>.", '2013-04-01 09:00:00', ['post_type' => 'page', 'menu_order' => 2]);
$tom = post('Tom', "Tom's kilns are his 'babies'.", '2013-04-01 09:05:00', ['post_type' => 'page', 'post_parent' => $about, 'menu_order' => 1]);
$course = post('Courses', "<!-- wp:paragraph -->\n<p>Two courses a year -- \"no experience\" needed.</p>\n<!-- /wp:paragraph -->\n\n<!-- wp:list -->\n<ul><!-- wp:list-item -->\n<li>Spring: wheel</li>\n<!-- /wp:list-item -->\n\n<!-- wp:list-item -->\n<li>Autumn: glazes</li>\n<!-- /wp:list-item --></ul>\n<!-- /wp:list -->", '2013-04-01 09:10:00', ['post_type' => 'page', 'menu_order' => 3]);
post("Beginners' course", "<!-- wp:heading -->\n<h2>What you'll learn</h2>\n<!-- /wp:heading -->\n\n<!-- wp:paragraph -->\n<p>Centring, pulling, trimming.</p>\n<!-- /wp:paragraph -->", '2013-04-01 09:15:00', ['post_type' => 'page', 'post_parent' => $course, 'menu_order' => 1]);
post('Gallery', "Some of our work:\n\n[gallery ids=\"" . implode(',', array_slice($pictures, 0, 7)) . "\" columns=\"4\" link=\"file\"]\n\nMore on request.", '2013-04-01 09:20:00', ['post_type' => 'page', 'menu_order' => 4]);
$contact = post('Contact', "Write to us:\n\n[contact-form-7 id=\"811\" title=\"Contact form\"]\n\nOr call 555-0100.", '2013-04-01 09:25:00', ['post_type' => 'page', 'menu_order' => 5]);
post('Find us', "Hollow Oak Lane 9\nOakford\n\nThe bus stops 'round the corner.", '2013-04-01 09:30:00', ['post_type' => 'page', 'post_parent' => $contact, 'menu_order' => 1]);
$news = post('News', '', '2013-04-01 09:35:00', ['post_type' => 'page', 'menu_order' => 1]);
$home = post('Home', "[et_pb_section fb_built=\"1\" _builder_version=\"4.9\"][et_pb_row][et_pb_column type=\"4_4\"][et_pb_text]<h1>Pots that last</h1>\n<p>Made by hand -- in Oakford.</p>[/et_pb_text][et_pb_image src=\"" . $src(2, 'full') . "\" alt=\"Three bowls\"][/et_pb_image][et_pb_blurb title=\"Courses for all\"]<p>Spring & autumn.</p>[/et_pb_blurb][et_pb_button button_url=\"http://www.hollowoak.example/courses/\" button_text=\"See the courses\"][/et_pb_button][/et_pb_column][/et_pb_row][/et_pb_section]", '2013-04-01 09:40:00', ['post_type' => 'page', 'menu_order' => 0]);
update_option('show_on_front', 'page');
update_option('page_on_front', $home);
update_option('page_for_posts', $news);
post('Old prices', 'HIDDENWORD draft page', '2014-04-01 09:40:00', ['post_type' => 'page', 'post_status' => 'draft']);

$classic = [
    ['First firing', "The kiln's been lit -- at last!\n\nIt took 12 hours to reach 1280 degrees... and 30 to cool.\nTom didn't sleep.\n\n[caption id=\"attachment_{$pictures[1]}\" align=\"aligncenter\" width=\"300\"]<img src=\"" . $src(1) . "\" alt=\"The kiln\" width=\"300\" height=\"225\" class=\"size-medium wp-image-{$pictures[1]}\" /> \"Big Bertha\", <em>our</em> kiln[/caption]\n\nNext time: glazes."],
    ['Five glazes', "Five glazes we like:\n<ol>\n\t<li>Celadon, 'the green one'</li>\n\t<li>Tenmoku</li>\n\t<li>Shino</li>\n</ol>\n<!--more-->\nThe rest of this is for those who read on.\n<h3>A recipe</h3>\n<pre>feldspar  40\n\n\"silica\"   30</pre>\nThat's it."],
    ['A gallery of raku', "Raku week was fun.\n\n[gallery ids=\"" . implode(',', [$pictures[3], $pictures[0], $pictures[5], $pictures[4]]) . "\"]\n\nThanks to all who came!"],
    ['A podcast about kilns', "We talked to Radio Oak:\n\n[audio mp3=\"" . wp_get_attachment_url($sound) . "\"][/audio]\n\nListen in."],
    ['How to centre clay', "Watch this:\n\nhttps://www.youtube.com/watch?v=abc123DEF45\n\nIt's all in the elbows."],
    ['Long read: the history of the wheel', "Part one is about Mesopotamia.\n\n<!--nextpage-->\n\nPart two is about Greece.\n\n<!--nextpage-->\n\nPart three: Oakford."],
    ['Open day', "We're open on 5th May, 10-17.\n\n<a href=\"http://www.hollowoak.example/2013/01/first-firing/\">Our first firing</a> & <a href=\"/?p=%1\$d\">more</a>.\n\n[button url=\"http://www.hollowoak.example/contact/\"]Get in touch[/button]"],
    ['Of tables', "<table>\n<tbody>\n<tr>\n<td>Cone</td>\n<td>Degrees</td>\n</tr>\n<tr>\n<td>9</td>\n<td>1280</td>\n</tr>\n</tbody>\n</table>\nCones are 2\" tall, the kiln 6'3\"."],
    ['Float left', "<img class=\"alignleft size-thumbnail wp-image-{$pictures[6]}\" src=\"" . $src(6, 'thumbnail') . "\" alt=\"\" width=\"150\" height=\"150\" />Text beside the picture, which floats.\n\nAnd more text: <strong>\"bold\"</strong>.\n<hr />\nThe end."],
    ['A film & a note', "[video mp4=\"http://www.hollowoak.example/wp-content/uploads/2016/05/film.mp4\" width=\"640\" height=\"360\"][/video]\n\n<div class=\"note\">A note\nin two lines</div>"],
];
$blocks = [
    ['Blocks at last', "<!-- wp:paragraph -->\n<p>We've moved to \"blocks\" -- it's fine...</p>\n<!-- /wp:paragraph -->\n\n<!-- wp:image {\"id\":{$pictures[7]},\"sizeSlug\":\"medium\",\"align\":\"right\"} -->\n<figure class=\"wp-block-image alignright size-medium\"><img src=\"" . $src(7) . "\" alt=\"Jug\" class=\"wp-image-{$pictures[7]}\"/><figcaption class=\"wp-element-caption\">A jug -- \"the\" jug</figcaption></figure>\n<!-- /wp:image -->\n\n<!-- wp:quote -->\n<blockquote class=\"wp-block-quote\"><!-- wp:paragraph -->\n<p>Clay remembers.</p>\n<!-- /wp:paragraph --><cite>Tom</cite></blockquote>\n<!-- /wp:quote -->"],
    ['Columns and buttons', "<!-- wp:columns -->\n<div class=\"wp-block-columns\"><!-- wp:column -->\n<div class=\"wp-block-column\"><!-- wp:paragraph -->\n<p>Left 'column'</p>\n<!-- /wp:paragraph --></div>\n<!-- /wp:column -->\n\n<!-- wp:column -->\n<div class=\"wp-block-column\"><!-- wp:paragraph -->\n<p>Right column</p>\n<!-- /wp:paragraph --></div>\n<!-- /wp:column --></div>\n<!-- /wp:columns -->\n\n<!-- wp:buttons -->\n<div class=\"wp-block-buttons\"><!-- wp:button -->\n<div class=\"wp-block-button\"><a class=\"wp-block-button__link wp-element-button\" href=\"http://www.hollowoak.example/contact/\">Write to us</a></div>\n<!-- /wp:button --></div>\n<!-- /wp:buttons -->"],
    ['A gallery of blocks', "<!-- wp:gallery {\"linkTo\":\"none\"} -->\n<figure class=\"wp-block-gallery has-nested-images columns-default is-cropped\"><!-- wp:image {\"id\":{$pictures[8]},\"sizeSlug\":\"large\",\"linkDestination\":\"none\"} -->\n<figure class=\"wp-block-image size-large\"><img src=\"" . $src(8, 'full') . "\" alt=\"\" class=\"wp-image-{$pictures[8]}\"/></figure>\n<!-- /wp:image -->\n\n<!-- wp:image {\"id\":{$pictures[9]},\"sizeSlug\":\"large\",\"linkDestination\":\"none\"} -->\n<figure class=\"wp-block-image size-large\"><img src=\"" . $src(9, 'full') . "\" alt=\"\" class=\"wp-image-{$pictures[9]}\"/><figcaption class=\"wp-element-caption\">Nine</figcaption></figure>\n<!-- /wp:image --></figure>\n<!-- /wp:gallery -->\n\n<!-- wp:paragraph -->\n<p>That's all.</p>\n<!-- /wp:paragraph -->"],
    ['More, in blocks', "<!-- wp:paragraph -->\n<p>The first part.</p>\n<!-- /wp:paragraph -->\n\n<!-- wp:more -->\n<!--more-->\n<!-- /wp:more -->\n\n<!-- wp:paragraph -->\n<p>The second part.</p>\n<!-- /wp:paragraph -->\n\n<!-- wp:separator -->\n<hr class=\"wp-block-separator has-alpha-channel-opacity\"/>\n<!-- /wp:separator -->\n\n<!-- wp:code -->\n<pre class=\"wp-block-code\"><code>say \"hello\" -- it's code</code></pre>\n<!-- /wp:code -->"],
    ['A film in blocks', "<!-- wp:paragraph -->\n<p>See here:</p>\n<!-- /wp:paragraph -->\n\n<!-- wp:embed {\"url\":\"https://www.youtube.com/watch?v=xyz987abc12\",\"type\":\"video\",\"providerNameSlug\":\"youtube\",\"responsive\":true} -->\n<figure class=\"wp-block-embed is-type-video is-provider-youtube wp-block-embed-youtube\"><div class=\"wp-block-embed__wrapper\">\nhttps://www.youtube.com/watch?v=xyz987abc12\n</div></figure>\n<!-- /wp:embed -->"],
    ['Latest, and a classic block', "<!-- wp:paragraph -->\n<p>New things:</p>\n<!-- /wp:paragraph -->\n\n<!-- wp:latest-posts /-->\n\nA classic part,\n\nof two paragraphs.\n\n<!-- wp:media-text {\"mediaId\":{$pictures[10]}} -->\n<div class=\"wp-block-media-text is-stacked-on-mobile\"><figure class=\"wp-block-media-text__media\"><img src=\"" . $src(10, 'full') . "\" alt=\"\" class=\"wp-image-{$pictures[10]} size-full\"/></figure><div class=\"wp-block-media-text__content\"><!-- wp:paragraph -->\n<p>Beside it.</p>\n<!-- /wp:paragraph --></div></div>\n<!-- /wp:media-text -->"],
];
$made = [];
post('On Wordpress', "I like Wordpress :) and pots ;-)\n:(\n\nNot here: <code>:) Wordpress</code>, x:) and http://wordpress.example/Wordpress/ 8-)", '2013-01-02 08:00:00', ['post_category' => [$courses]]);
post('A tag that nobody has', "Before it.\n\n[unknown_thing a=\"1\"]Text within[/unknown_thing]\n\nAfter it.", '2013-01-02 09:00:00', ['post_category' => [$courses]]);
for ($number = 0; $number < 36; $number++) {
    $is_new = $number >= 24;
    [$title, $content] = $is_new ? $blocks[$number % 6] : $classic[$number % 10];
    $turn = intdiv($is_new ? $number - 24 : $number, $is_new ? 6 : 10);
    if ($turn > 0) {
        $title .= " ($turn)";
        $content .= $is_new ? "\n\n<!-- wp:paragraph -->\n<p>Round $turn: it's \"better\" -- $turn&nbsp;times.</p>\n<!-- /wp:paragraph -->" : "\n\nRound $turn: it's \"better\" -- see <a href=\"http://www.hollowoak.example/?p=" . $made[$number - 10] . "\">last time</a>.";
    }
    $date = sprintf('%d-%02d-%02d %02d:15:00', 2013 + intdiv($number, 6), 1 + ($number * 5) % 12, 1 + ($number * 7) % 28, 8 + $number % 12);
    $content = str_replace('%1$d', $made[0] ?? 0, $content);
    $made[] = $id = post($title, $content, $date, [
        'post_author' => $number % 4 ? 1 : 2, 'tags_input' => [$tags[$number % count($tags)], $tags[($number * 3 + 1) % count($tags)]],
        'post_category' => [[$glazes, $celadon, $courses, $shop][$number % 4]],
        'post_excerpt' => $number % 9 === 4 ? "A hand-written excerpt -- no. $number's." : '',
    ]);
    if ($number % 3 === 0) {
        set_post_thumbnail($id, $pictures[$number % 18]);
    }
    for ($count = 0, $parent = 0; $count < $number % 5; $count++) {
        $parent = comment($id, ['Ann', "O'Hara <b>", 'Joe'][$count % 3], "Comment $count on $title: it's \"nice\"!\nTwo lines.\n\nAnd <a href=\"http://elsewhere.example/\">a link</a>.", str_replace(':15:', ":2$count:", $date), $count % 2 ? $parent : 0);
    }
}
stick_post($made[2]);
comment($made[1], 'Spammer', 'HIDDENWORD spam', '2015-01-01 10:00:00', 0, ['comment_approved' => 'spam']);
comment($made[1], 'Waiting', 'HIDDENWORD waiting', '2015-01-01 10:00:00', 0, ['comment_approved' => 0]);
wp_update_post(['ID' => $made[3], 'post_name' => 'kiln-podcast']);
post('Draft thoughts', 'HIDDENWORD draft', '2019-03-02 10:00:00', ['post_status' => 'draft', 'post_category' => [$shop]]);
post('Private HIDDENWORD', 'HIDDENWORD private', '2019-03-03 10:00:00', ['post_status' => 'private', 'post_category' => [$shop]]);
post('Members only HIDDENWORD', 'HIDDENWORD password', '2013-01-04 10:00:00', ['post_password' => 'x', 'post_category' => [$shop], 'tags_input' => ['raku']]);
post('Pending HIDDENWORD', 'HIDDENWORD pending', '2019-03-05 10:00:00', ['post_status' => 'pending']);
post('Future HIDDENWORD', 'HIDDENWORD future', '2099-03-05 10:00:00', ['post_status' => 'future']);

$menu = wp_create_nav_menu('Main');
menu_entry($menu, 1, ['menu-item-type' => 'custom', 'menu-item-title' => 'Start', 'menu-item-url' => 'http://www.hollowoak.example/']);
$item = menu_entry($menu, 2, ['menu-item-type' => 'post_type', 'menu-item-object' => 'page', 'menu-item-object-id' => $about]);
menu_entry($menu, 3, ['menu-item-type' => 'post_type', 'menu-item-object' => 'page', 'menu-item-object-id' => $tom, 'menu-item-parent-id' => $item]);
menu_entry($menu, 4, ['menu-item-type' => 'taxonomy', 'menu-item-object' => 'category', 'menu-item-object-id' => $glazes]);
menu_entry($menu, 5, ['menu-item-type' => 'post_type', 'menu-item-object' => 'page', 'menu-item-object-id' => $news, 'menu-item-title' => 'News & notes']);
menu_entry($menu, 6, ['menu-item-type' => 'custom', 'menu-item-title' => 'Friends <3', 'menu-item-url' => 'https://friends.example/?a=1&b=2']);
