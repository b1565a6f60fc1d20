/* The native methods of Find.java. */
#include <jni.h>
#include <literal_search.h>

JNIEXPORT jlong JNICALL Java_Find_make(JNIEnv *env, jclass class, jbyteArray patterns, jlongArray ends) {
    jbyte *bytes = (*env)->GetByteArrayElements(env, patterns, NULL);
    jlong *numbers = (*env)->GetLongArrayElements(env, ends, NULL);
    int32_t status = LITERAL_OUT_OF_MEMORY;
    literal_search *search = NULL;
    if (bytes != NULL && numbers != NULL)
        search = literal_new(LITERAL_LEFTMOST_FIRST, 0, (const uint8_t *)bytes,
                             (size_t)(*env)->GetArrayLength(env, patterns), (const size_t *)numbers,
                             (size_t)(*env)->GetArrayLength(env, ends), &status);
    (*env)->ReleaseByteArrayElements(env, patterns, bytes, JNI_ABORT);
    (*env)->ReleaseLongArrayElements(env, ends, numbers, JNI_ABORT);
    if (search == NULL)
        (*env)->ThrowNew(env, (*env)->FindClass(env, "java/lang/IllegalArgumentException"),
                         literal_status_text(status));
    return (jlong)(intptr_t)search;
}

JNIEXPORT jboolean JNICALL Java_Find_next(JNIEnv *env, jclass class, jlong search, jbyteArray text, jlong from,
                                          jlongArray found) {
    size_t len = (size_t)(*env)->GetArrayLength(env, text);
    void *bytes = (*env)->GetPrimitiveArrayCritical(env, text, NULL);
    literal_match match = {0, 0, 0};
    int is_found = bytes != NULL && literal_next((literal_search *)(intptr_t)search, bytes, len, (size_t)from, &match);
    (*env)->ReleasePrimitiveArrayCritical(env, text, bytes, JNI_ABORT);
    const jlong numbers[] = {(jlong)match.pattern, (jlong)match.start, (jlong)match.end};
    if (is_found)
        (*env)->SetLongArrayRegion(env, found, 0, 3, numbers);
    return (jboolean)is_found;
}

JNIEXPORT void JNICALL Java_Find_free(JNIEnv *env, jclass class, jlong search) {
    literal_free((literal_search *)(intptr_t)search);
}
