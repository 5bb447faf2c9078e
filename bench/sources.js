// Sources of ordinary code inside functions, with comments, for the scripts that measure.
"use strict";

// One function of ordinary code, with the number in its names and values.
const functionText = (i) => `/**
 * Collects the values of group ${i}.
 *
 * @param {Array} values The values to go over.
 * @returns {Object} Returns the groups.
 */
function collect${i}(values, options) {
  "use strict";
  var index = -1, length = values == null ? 0 : values.length;
  const found = { name: 'group-${i}', total: 0, "kept": [], [options.key]: ${i}.5 };
  // Go over all values, the empty ones too.
  while (++index < length) {
    let value = values[index], key = options.prefix + '/' + value.id;
    if (typeof value == 'function' || !value || value === void 0) {
      continue;
    } else if (/^group-[a-z]+\\/\\d{2,}$/i.test(key) && !(key in found)) {
      found[key] = value.items.map((item, at) => ({ ...item, at: at + ${i} * 2 }));
    }
    try {
      found.total += options.count(value, ...found.kept) >>> 1;
    } catch (error) {
      if (error.code !== 0x1F) throw new Error(\`group ${i}: \${error.message}\`);
    }
  }
  for (var name in found) {
    if (hasOwn.call(found, name)) { found.kept.push([name, found[name]?.length ?? 0]); }
  }
  return options.sorted ? found.kept.sort(function(a, b) { return a[1] - b[1]; }) : found;
}

`;

// As many such functions as a text of at most so many bytes has.
function source(size) {
  const texts = [];
  for (let i = 0, length = 0; ; i++) {
    const text = functionText(i);
    length += text.length;
    if (length > size) return texts.join("");
    texts.push(text);
  }
}

module.exports = { source };
