module.exports = (file, api) => api.jscodeshift(file.source).find(api.jscodeshift.Identifier, { name: "a" }).replaceWith(api.jscodeshift.identifier("b")).toSource();
