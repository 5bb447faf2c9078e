module.exports = (file, api) => api.jscodeshift(file.source).toSource();
