// The picture of the page for README, docs/pictures/card.png:  node clients/web/picture.mjs
import path from 'node:path';
import { pathToFileURL } from 'node:url';
import { TOP } from './make.mjs';
import { openChromium } from './driver.mjs';

const { page, close } = await openChromium();
await page.size(1280, 720);
await page.open(pathToFileURL(path.join(TOP, 'docs', 'card.html')).href);
await page.press('#tab-line');
await page.press('#answers [data-line="7"]');
await page.shot(path.join(TOP, 'docs', 'pictures', 'card.png'));
await close();
