// Changes a value in its place: Enter sends it, Escape leaves it. What the server refuses stands below, in its words.

import { valueJson } from './documents.js';
import { make } from './dom.js';
import { chosenLanguage, spoken } from './language.js';
import { change, Refusal } from './server.js';

/** For each kind that can be changed: its fields, and the JSON that their texts are sent as. */
const FORMS = {
  Property: {
    fields: ({ value }) => [['Value', value]],
    json: ([text], { valueType }) => valueJson(text, valueType),
  },
  Range: {
    fields: ({ min, max }) => [['Least value', min], ['Greatest value', max]],
    json: ([min, max], { valueType }) => `{"min":${limitJson(min, valueType)},"max":${limitJson(max, valueType)}}`,
  },
  MultiLanguageProperty: {
    fields: ({ value }) => [[`Text in ${languageOf(value)}`, spoken(value)?.text]],
    json: ([text], { value }) => JSON.stringify(withText(value ?? [], languageOf(value), text)),
  },
  File: {
    fields: ({ value }) => [['Path', value]],
    json: ([text]) => JSON.stringify({ value: text }),
  },
};

const limitJson = (text, valueType) => (text === '' ? 'null' : valueJson(text, valueType));
const languageOf = texts => spoken(texts)?.language ?? chosenLanguage();

/** The value form of texts of which the one in that language is another, or is new. */
function withText(texts, language, text) {
  const all = texts.some(it => it.language === language) ? texts : [...texts, { language }];
  return all.map(it => ({ [it.language]: it.language === language ? text : it.text }));
}

export const canEdit = element => element.modelType in FORMS;

/** Puts fields into the cell of a value, and calls `end` with whether the value was changed. */
export function edit(cell, node, end) {
  const { fields, json } = FORMS[node.referable.modelType];
  const inputs = fields(node.referable).map(makeField);
  const before = inputs.map(input => input.value);
  const isSame = () => inputs.every((input, n) => input.value === before[n]);
  const refusal = make('span', { class: 'refusal', role: 'alert' });
  let isSending = false;
  const send = async () => {
    if (isSending) return;
    isSending = true;
    refusal.textContent = isSame() ? '' : await refused(node, json(inputs.map(input => input.value), node.referable));
    isSending = false;
    if (refusal.textContent) inputs[0].focus();
    else end(!isSame());
  };
  const form = makeForm([...inputs, ...makeButtons(send, () => end(false)), refusal], send, () => end(false));
  form.addEventListener('focusout', event => !form.contains(event.relatedTarget) && isSame() && end(false));
  cell.replaceChildren(form);
  inputs[0].focus({ preventScroll: true });
  inputs[0].select();
}

/** Sends a value; answers the words of a refusal, or an empty text. */
async function refused(node, json) {
  try {
    await change(`${node.address}/$value`, json);
    return '';
  } catch (error) {
    if (error instanceof Refusal) return error.message;
    throw error;
  }
}

/** A field of one line, or of more where the text has them. */
function makeField([label, text = '']) {
  const tag = /[\r\n]/.test(text) ? 'textarea' : 'input';
  const field = make(tag, { 'aria-label': label, title: label, spellcheck: 'false' });
  field.value = text;
  return field;
}

function makeButtons(save, cancel) {
  const button = (label, sign, click) => make('button', { 'aria-label': label, title: label, click }, sign);
  return [button('Save', '✓', save), button('Cancel', '✕', cancel)];
}

function makeForm(parts, save, cancel) {
  const keydown = event => {
    event.stopPropagation();
    if (event.key === 'Escape') cancel();
    if (event.key !== 'Enter' || event.shiftKey || event.isComposing || event.target.matches('button')) return;
    event.preventDefault();
    save();
  };
  return make('div', { class: 'editor', keydown }, parts);
}
