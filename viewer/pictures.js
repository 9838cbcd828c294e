// The picture of a shell: the first Blob with one in its submodels.

import { childPath, childrenOf } from './documents.js';
import { isPicture, picture } from './dom.js';
import { pathOf, read, Refusal } from './server.js';

const ELEMENTS = 100;            // so many elements of a submodel are looked through, with all in them
const BYTES = 2 * 1024 * 1024;   // so much is read for that at most

/** Shows the picture in its room, if there is one. */
export async function showPicture(room, submodels, signal) {
  for (const submodel of submodels) {
    try {
      const shown = await pictureOf(submodel, signal);
      if (signal.aborted) return;
      if (shown) {
        room.replaceChildren(shown);
        return;
      }
    } catch (error) {
      if (signal.aborted) return;
      if (!(error instanceof Refusal)) throw error;
    }
  }
}

async function pictureOf(submodel, signal) {
  const { result } = await read(`${pathOf(submodel)}/submodel-elements?limit=${ELEMENTS}`, signal, BYTES);
  const path = pictureAmong(result.map(element => [element.idShort, element]));
  return path && picture(await read(`${pathOf(submodel, path)}?extent=withBlobValue`, signal), path);
}

/** The path of the first Blob with a picture among elements with their paths. */
function pictureAmong(elements) {
  for (const [path, element] of elements) {
    if (element.modelType === 'Blob' && isPicture(element.contentType)) return path;
    const found = pictureAmong(childrenOf(element).map((child, n) => [childPath(element, path, child, n), child]));
    if (found) return found;
  }
  return undefined;
}
