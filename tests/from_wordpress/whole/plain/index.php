<!DOCTYPE html>
<html <?php language_attributes(); ?>>
<head><meta charset="utf-8"><?php wp_head(); ?></head>
<body><main>
<?php while (have_posts()) : the_post(); ?>
<article id="post-<?php the_ID(); ?>"><h2><a href="<?php the_permalink(); ?>"><?php the_title(); ?></a></h2>
<div class="content"><?php the_content(); ?></div></article>
<?php endwhile; ?>
</main></body></html>
