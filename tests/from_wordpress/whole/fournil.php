<?php
/*
 * The site of a French bakery: the classic editor alone, addresses of category and name, a front that lists posts, no menu.
 * Loaded by site.php.
 */
$when = ['2015/01', '2017/06', '2019/12'];
$pictures = [];
for ($number = 1; $number <= 9; $number++) {
    $pictures[] = picture("pain-$number.jpg", 640, 480, "Pain $number", $number % 2 ? "Photo \"n° $number\" -- tout frais" : '', "L'image n° $number",
        $when[$number % 3]);
}
$src = fn($at, $size = 'medium') => wp_get_attachment_image_src($pictures[$at], $size)[0];
$breads = wp_insert_term('Pains & brioches', 'category')['term_id'];
$rye = wp_insert_term('Seigle', 'category', ['parent' => $breads])['term_id'];
$cakes = wp_insert_term('Gâteaux', 'category')['term_id'];
$about = post('À propos', "Depuis 1903, nous cuisons dans la \"Vieille rue\".\n\nNotre devise : 'qui va lentement va sûrement'.", '2015-01-01 08:00:00', ['post_type' => 'page']);
post('Heures d\'ouverture', "Lu - Ve : 6-18 h\nSa : 6-12 h", '2015-01-01 08:05:00', ['post_type' => 'page', 'post_parent' => $about]);
post('Accès', "Le fournil est au 3, Vieille rue.\n\n[contact-form-7 id=\"4\"]", '2015-01-01 08:10:00', ['post_type' => 'page', 'menu_order' => -1]);
post('Mentions légales', "Éditeur : le fournil...\n<address>3, Vieille rue</address>", '2015-01-01 08:15:00', ['post_type' => 'page', 'menu_order' => 9]);
$texts = [
    ['Le "pain gris"', "Notre \"pain gris\" est là -- enfin !\n\nIl a 70 % de seigle, 'sans levure'...\nEt se garde 10 jours.\n\n[caption id=\"attachment_{$pictures[0]}\" align=\"alignleft\" width=\"300\"]<img class=\"size-medium wp-image-{$pictures[0]}\" src=\"" . $src(0) . "\" alt=\"Pain\" width=\"300\" height=\"225\" /> Le \"nouveau\" pain[/caption]\n\nVoir aussi la page <a href=\"http://fournil.example/a-propos/\">À propos</a>."],
    ['Recette : le levain', "Il faut :\n<ul>\n\t<li>500 g de farine</li>\n\t<li>de l'eau \"tiède\"</li>\n</ul>\n<!--more Lire la recette-->\n<h2>C'est parti</h2>\nOn mélange tout - et voilà.\n\n<blockquote>Patience !</blockquote>"],
    ['Photos de la fête', "C'était beau :\n\n[gallery ids=\"" . implode(',', array_slice($pictures, 1, 5)) . "\" columns=\"2\" size=\"medium\"]\n\nÀ l'année prochaine."],
    ['À la radio', "À réécouter :\n\nhttps://vimeo.com/123456\n\nBien à vous & à bientôt"],
    ['Noël', "<h3>Bûche</h3>\n<p>Dès le 1er décembre.</p>\n<div>Commandez\nà temps</div>\n<table><tr><td>petite</td><td>9,50 €</td></tr></table>\nVotre fournil"],
    ['En deux parties', "Première partie.<!--nextpage-->Deuxième partie : \"fin\"."],
];
for ($number = 0, $made = []; $number < 37; $number++) {
    [$title, $content] = $texts[$number % 6];
    $turn = intdiv($number, 6);
    $title .= $turn ? " $turn" : '';
    $content .= $turn ? "\n\nTour $turn : voir <a href=\"http://fournil.example/?p={$made[0]}\">\"autrefois\"</a>." : '';
    $date = sprintf('%d-%02d-%02d 06:30:00', 2015 + intdiv($number, 8), 1 + ($number * 5) % 12, 1 + ($number * 11) % 28);
    $made[] = post($title, $content, $date, [
        'post_category' => [[$breads, $rye, $cakes][$number % 3]], 'tags_input' => $number % 2 ? ['Saison'] : ['Sucré', 'Saison'],
        'post_author' => $number % 5 ? 1 : 2,
    ]);
    if ($number % 7 === 0) {
        comment(end($made), 'Gisèle', "C'est \"super\" !", "$date");
    }
}
post('HIDDENWORD brouillon', 'HIDDENWORD', '2018-01-01 10:00:00', ['post_status' => 'draft']);
post('HIDDENWORD privé', 'HIDDENWORD', '2018-01-02 10:00:00', ['post_status' => 'private']);
