// What a policy says of the files, and what of a stack holds today.

const VERDICTS = { holds: 'good', broken: 'error', 'not known': 'unknown' };

function ruleItem(line, found) {
  const item = element('li', { className: VERDICTS[line.verdict] });
  const verdict = element('span', { className: 'level', textContent: line.verdict });
  item.append(verdict, element('code', { textContent: shown(line.rule) }), ` (${count(line.stacks, 'stack')})`);
  for (const finding of found) {
    const textContent = shown(`${finding.number} ${finding.name}: ${finding.sentence}`);
    item.append(element('span', { className: 'way', textContent }), explainButton(finding.number, item));
    const stack = finding.stacks[0];
    if (stack && finding.steps.length > 0) {
      const show = element('button', { type: 'button', className: 'link', textContent: 'Show this run' });
      show.addEventListener('click', () => showStack(stack.service, stack.type, finding.steps));
      item.append(show);
    }
  }
  return item;
}

async function refreshPolicy() {
  const turn = state.turn, text = $('policy').value;
  if (text.trim() === '') {
    $('held').textContent = '';
    return clear('rules');
  }
  const { words, files } = sourceOf(state.files, 'policy');
  const said = await Engine.answer(['policy', 'policy', ...words, '--json'], [...files, ['policy', bytesOf(text)]]);
  if (!said || turn !== state.turn || text !== $('policy').value) return undefined;
  const lines = linesOf(said.text), found = lines.filter((line) => line.kind === 'finding');
  const total = lines.find((line) => line.kind === 'total');
  $('held').textContent = shown(said.refusal) || (total ? `${count(total.rules, 'rule')}, ${levelsOf(total)}` : '');
  const rules = lines.filter((line) => line.kind === 'rule').map((rule) => [rule, found.filter(({ line }) => line === rule.line)]);
  return renew($('rules'), rules.map((rule) => JSON.stringify(rule)), (at) => ruleItem(...rules[at]));
}

// A library without the command `needs` offers no button for it.
async function offerNeeds() {
  const said = await Engine.answer(['needs', '--help'], []);
  $('needs').hidden = said?.status !== 0;
}

// Adds what holds today of the stack that is chosen to the policy, as rules.
async function addNeeds() {
  const said = await Engine.answer(...stackSource('needs'));
  if (!said) return undefined;
  if (said.status !== 0) {
    $('held').textContent = shown(said.refusal);
    return undefined;
  }
  const { value } = $('policy');
  $('policy').value = `${value}${value === '' || value.endsWith('\n') ? '' : '\n'}${said.text}`;
  return refreshPolicy();
}
