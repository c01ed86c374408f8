// What an edit changes.

const EFFECTS = { admits: ['error', 'lets in'], refuses: ['warning', 'keeps out'], tells: ['note', 'fails otherwise'] };

const SIDES = { old: 'before only: ', new: 'after only: ', both: '' };

const GUARDS = { counts: 'counts failed logins', checks: 'checks who logs in', refuses: 'may refuse a login' };

const changeStep = ({ configuration, module, code }) => `${SIDES[configuration]}${module} ${code}`;

const moduleList = (modules) => modules.map(({ module }) => module).join(', ');

const wordsOf = (words) => (words.length > 0 ? `"${words.join(' ')}"` : 'no arguments');

// What is said of one line of a comparison: its level, a word for it, and the rest.
function changeText(line) {
  const place = line.service ? `${line.service} ${line.type ?? ''}`.trim() : '';
  switch (line.kind) {
    case 'change': {
      const [level, word] = EFFECTS[line.change];
      const steps = line.steps.map(changeStep).join(', ');
      return [level, word, `${place}: ${line.old} becomes ${line.new}${steps ? ` where ${steps}` : ''}`];
    }
    case 'as': return ['note', 'the same', `${place}, as ${line.first_service} ${line.first_type}`];
    case 'only': return ['note', 'only', `${line.service} is only in the ${line.configuration} files`];
    case 'refused': {
      const side = (fault) => (fault ? `${fault.number} ${fault.name} at ${nameOf(fault.file)}:${fault.line}` : 'no fault');
      return ['warning', 'refused', `${place}: before ${side(line.old)}, after ${side(line.new)}`];
    }
    case 'arguments': return ['note', 'arguments', `${place}: ${line.module} had ${wordsOf(line.old)} and has ${wordsOf(line.new)}`];
    case 'same_decisions': {
      const parts = ['removed', 'added', 'moved', 'controls'].filter((part) => line[part].length > 0)
        .map((part) => `${part} ${moduleList(line[part])}`);
      return ['good', 'same decisions', `${place}${parts.length > 0 ? `: ${parts.join('; ')}` : ''}`];
    }
    case 'guard':
      return [line.change === 'removed' ? 'warning' : 'note', line.change,
        `${place}: ${line.module}, which ${GUARDS[line.guard]} (${nameOf(line.file)}:${line.line})`];
    case 'not_known': return ['warning', 'not known', `${place}: there are too many situations`];
    default: return null;
  }
}

function changeItem(line) {
  const text = changeText(line);
  const item = element('li', { className: text[0] });
  item.append(element('span', { className: 'level', textContent: text[1] }), shown(text[2]));
  return item;
}

function comparedText(last) {
  if (last?.kind !== 'compared') return '';
  const { stacks, changed, equal, same_decisions: same, refused } = last;
  return `${count(stacks, 'stack')}: ${changed} changed, ${equal} equal, ${same} with the same decisions, ${refused} refused`;
}

// The words of a comparison, and the files of both sides by their paths.
function compareSource() {
  const others = othersOf(state.files, 'compare');
  const single = isSingle(state.files);
  const side = (files, folder) => (single ? [[`${folder}/${SINGLE}`, files.get(SINGLE).bytes]] : folderOf(files, folder));
  const places = single ? [`old/${SINGLE}`, `new/${SINGLE}`, '--conf'] : ['old', 'new'];
  return [['compare', ...places, ...others.words, '--json'], [...side(state.old, 'old'), ...side(state.files, 'new'), ...others.files]];
}

// Why there is nothing to compare, or nothing.
function reasonNotToCompare() {
  if (areSameFiles(state.old, state.files)) return 'The files are as they were. Edit one to see whom that lets in or keeps out.';
  if ([state.old, state.files].some((files) => servicesOf(files).length === 0)) return 'One of the two has no service.';
  return isSingle(state.old) !== isSingle(state.files) ? 'A folder is not compared with one pam.conf.' : '';
}

async function refreshChanges() {
  const turn = state.turn, reason = reasonNotToCompare();
  $('restore').disabled = areSameFiles(state.old, state.files);
  if (reason) {
    $('compared').textContent = reason;
    return clear('changes');
  }
  const said = await Engine.answer(...compareSource());
  if (!said || turn !== state.turn) return undefined;
  const lines = linesOf(said.text), items = lines.slice(0, MAX_SHOWN).filter(changeText);
  $('compared').textContent = shown(said.refusal) || comparedText(lines.at(-1));
  return renew($('changes'), items.map((line) => JSON.stringify(line)), (at) => changeItem(items[at]));
}
